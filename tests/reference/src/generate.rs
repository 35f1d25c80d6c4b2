//! Trials: a log, the sizes of what a caller lends, and a tag that names what
//! the log is about. Trial `index` of `seed` is the same on every machine.

use crate::chewing::{Outcome, CHEWED};
use crate::draft::{self, Draft, Wish};
use crate::faults::{self, Expectation, Fault};
use crate::fields::MODES;
use crate::mending::{mend_text, Rooms};
use crate::random::Random;
use crate::reading::{read, LONGEST_LOG};
use crate::strikes::{strikes, Strike};
use crate::striking::strike_log;
use crate::values;
use crate::writing::write_log;

pub struct Trial {
    pub tag: String,
    pub log: Vec<u8>,
    /// What its maker knows of it as it is, and of it after mending.
    pub expectation: Expectation,
    pub outcome: Outcome,
    /// The keyword number asked of the view.
    pub keyword: u64,
    /// How many verdicts the lent slice holds.
    pub verdicts_len: usize,
    /// How many bytes the lent output slice holds.
    pub output_len: usize,
    /// What is lent for mending.
    pub rooms: Rooms,
    /// What is struck from it, one time after the other.
    pub strikes: Vec<Strike>,
}

/// As many changes as there can be in a log that is accepted once it is mended:
/// each of its lines has two bytes for each of them.
pub const MOST_CHANGES: usize = LONGEST_LOG / 2;

pub struct Generator {
    seed: u64,
    faults: Vec<Fault>,
}

type Maker = fn(&mut Random) -> Vec<u8>;

/// The kinds of logs that keep every rule and the share each has: large logs
/// come seldom because each costs as much as a hundred small ones.
const VALID: &[(&str, usize, Maker)] = &[
    ("valid/small", 14, small),
    ("valid/no-records", 2, no_records),
    ("valid/repeats", 8, repeats),
    ("valid/errors-and-voids", 4, errors_and_voids),
    ("valid/second-tries", 8, second_tries),
    ("valid/second-tries-struck", 3, second_tries_struck),
    ("valid/second-tries-every-order", 1, second_tries_every_order),
    ("valid/modes", 6, modes),
    ("valid/remarks", 3, many_remarks),
    ("valid/longest-lines", 2, longest_lines),
    ("valid/shortest-lines", 2, shortest_lines),
    ("valid/written-back", 3, written_back),
    ("valid/respelt-one-letter", 4, respelt_one_letter),
    ("valid/respelt-mixed", 3, respelt_mixed),
    ("valid/respelt-small", 1, respelt_small),
    ("valid/respelt-capitals", 1, respelt_capitals),
    ("valid/respelt-old", 2, respelt_old),
    ("valid/respelt-full", 1, respelt_full),
    ("valid/some-hundred", 3, some_hundred),
    ("valid/full", 1, full),
    ("valid/full-of-repeats", 1, full_of_repeats),
    ("valid/full-of-second-tries", 1, full_of_second_tries),
    ("valid/full-of-one-mode", 1, full_of_one_mode),
    ("valid/full-of-all-modes", 1, full_of_all_modes),
    ("valid/greatest-total", 1, greatest_total),
    ("valid/65535-bytes", 1, longest_log),
    ("valid/written-65535-bytes", 1, grows_to_the_limit),
    ("valid/written-too-long", 1, grows_over_the_limit),
];

type Damage = fn(&mut Random, &mut Vec<u8>);

const DAMAGES: &[(&str, Damage)] = &[
    ("damage/flip", flip_a_bit),
    ("damage/case", flip_a_case),
    ("damage/replace", replace_a_byte),
    ("damage/insert", insert_a_byte),
    ("damage/delete", delete_a_byte),
    ("damage/delete-piece", delete_a_piece),
    ("damage/truncate", truncate),
    ("damage/duplicate-piece", duplicate_a_piece),
    ("damage/swap-lines", swap_lines),
    ("damage/duplicate-line", duplicate_a_line),
    ("damage/several", several),
];

/// Logs of which only the judge can tell whether they keep the rules, each
/// with its share.
const OPEN: &[(&str, usize, Maker)] = &[
    ("near/field", 6, faults::near_field),
    ("near/argument", 5, faults::near_argument),
    ("near/keyword", 4, faults::near_keyword),
    ("near/line", 2, faults::near_line),
    ("two-faults", 2, faults::two_faults),
    ("noise/bytes", 1, noise),
    ("noise/lines", 1, noise_lines),
];

/// Bytes that mean something somewhere in the format.
const TELLING: &[u8] = b"\x00\x0a\x0d\x1f \x7f\x80\xff;;;;==[]0019NDARXaz/,";

impl Generator {
    pub fn new(seed: u64) -> Generator {
        Generator { seed, faults: faults::all() }
    }

    /// Every tag a trial can have.
    pub fn tags(&self) -> Vec<String> {
        let mut tags: Vec<String> = Vec::new();
        tags.extend(VALID.iter().map(|kind| kind.0.to_string()));
        tags.extend(self.faults.iter().map(|fault| fault.tag.clone()));
        tags.extend(DAMAGES.iter().map(|kind| kind.0.to_string()));
        tags.extend(OPEN.iter().map(|kind| kind.0.to_string()));
        tags.extend(CHEWED.iter().map(|kind| kind.0.to_string()));
        tags
    }

    /// Of five trials one is valid, two have a fault, one is damaged, and one is
    /// chewed.
    pub fn trial(&self, index: u64) -> Trial {
        let mut random = Random::new(self.seed, index);
        let round = index / 5;
        let made = match index % 5 {
            0 => valid(&mut random, round),
            1 => self.fault(&mut random, round * 2),
            2 => self.fault(&mut random, round * 2 + 1),
            3 => damaged(&mut random, round),
            _ => chewed(&mut random, round),
        };
        lend(&mut random, made)
    }

    /// Faults are taken in turn, so that none is left to luck.
    fn fault(&self, random: &mut Random, turn: u64) -> Made {
        let fault = &self.faults[(turn % self.faults.len() as u64) as usize];
        let (log, expectation) = fault.make(random);
        Made { tag: fault.tag.clone(), log, expectation, outcome: Outcome::Open }
    }
}

/// A log, and what its maker knows of it.
struct Made {
    tag: String,
    log: Vec<u8>,
    expectation: Expectation,
    outcome: Outcome,
}

/// A log of which its maker knows nothing.
fn open(tag: &str, log: Vec<u8>) -> Made {
    Made { tag: tag.to_string(), log, expectation: Expectation::Open, outcome: Outcome::Open }
}

fn valid(random: &mut Random, round: u64) -> Made {
    let (tag, make) = by_share(VALID, round % shares(VALID));
    let log = make(random);
    Made { expectation: Expectation::Accepted, outcome: Outcome::Restored(log.clone()), ..open(tag, log) }
}

fn damaged(random: &mut Random, round: u64) -> Made {
    let turn = round % (DAMAGES.len() as u64 + shares(OPEN));
    if let Some(&(tag, damage)) = DAMAGES.get(turn as usize) {
        let mut log = small(random);
        damage(random, &mut log);
        return open(tag, log);
    }
    let (tag, make) = by_share(OPEN, turn - DAMAGES.len() as u64);
    open(tag, make(random))
}

fn chewed(random: &mut Random, round: u64) -> Made {
    let (tag, make) = by_share(CHEWED, round % shares(CHEWED));
    let (log, outcome) = make(random);
    Made { outcome, ..open(tag, log) }
}

/// Any of the damages; the log must not be empty.
pub fn damage(random: &mut Random, log: &mut Vec<u8>) {
    let (_, damage) = *random.pick(DAMAGES);
    damage(random, log);
}

fn shares<M>(kinds: &[(&str, usize, M)]) -> u64 {
    kinds.iter().map(|kind| kind.1 as u64).sum()
}

/// The kind whose share `turn` falls into; it must be below the sum of shares.
fn by_share<M: Copy>(kinds: &[(&'static str, usize, M)], mut turn: u64) -> (&'static str, M) {
    for &(tag, share, make) in kinds {
        if turn < share as u64 {
            return (tag, make);
        }
        turn -= share as u64;
    }
    unreachable!("the turn is below the sum of the shares")
}

/// Adds the sizes lent and the keyword asked for, near their bounds.
fn lend(random: &mut Random, made: Made) -> Trial {
    let (records, written) = match read(&made.log) {
        Ok(log) => (log.records.len(), write_log(&log).len()),
        // Nothing bounds the sizes of a refused log; these are as good as any.
        Err(_) => (random.below(12), made.log.len().min(LONGEST_LOG + 9)),
    };
    let verdicts_len = match random.below(12) {
        0 | 1 => records.saturating_sub(1),
        2 => 0,
        3 => 999,
        4 => random.below(records + 1),
        5..=8 => records,
        _ => records + 3,
    };
    let output_len = match random.below(12) {
        0 | 1 => written.saturating_sub(1),
        2 => 0,
        3 => LONGEST_LOG,
        4 => LONGEST_LOG + 1,
        5 => random.below(written + 1),
        6..=8 => written,
        _ => written + 5,
    };
    let keyword = match random.below(12) {
        0 => 0,
        1 => 37,
        2 => *random.pick(&[u64::MAX, 38, 256 + 1, 65_536 + 1, (1 << 32) + 1, 1 << 63]),
        3 => *random.pick(&[1, 36]),
        _ => random.between(1, 36) as u64,
    };
    let rooms = rooms(random, &made.log);
    let strikes = strikes(random, &made.log);
    let Made { tag, log, expectation, outcome } = made;
    Trial { tag, log, expectation, outcome, keyword, verdicts_len, output_len, rooms, strikes }
}

/// What is lent for mending: mostly enough, and else too short in each of the
/// three slices or in several.
fn rooms(random: &mut Random, log: &[u8]) -> Rooms {
    let mended = mend_text(log);
    let (length, changes) = (mended.text.len(), mended.changes.len());
    let out = match random.below(16) {
        0 => length.saturating_sub(1),
        1 => 0,
        2 => random.below(length + 1),
        3 => LONGEST_LOG,
        4 => LONGEST_LOG + 1,
        5..=10 => length,
        _ => length + 5,
    };
    let short = changes.saturating_sub(1);
    let (kinds, lines) = match random.below(24) {
        0 => (short, changes),
        1 => (changes, short),
        2 => (short, short),
        3 => (0, changes + 1),
        4 => (changes + 1, 0),
        5 => (0, 0),
        6 => (random.below(changes + 1), random.below(changes + 1)),
        7 => (MOST_CHANGES, MOST_CHANGES),
        8 => (changes, changes + 1_000),
        9 => (changes + 1_000, changes),
        10..=14 => (changes + 2, changes + 5),
        _ => (changes, changes),
    };
    Rooms { out, kinds, lines }
}

fn small(random: &mut Random) -> Vec<u8> {
    draft::small(random).bytes()
}

fn no_records(random: &mut Random) -> Vec<u8> {
    draft::draft(random, Wish { records: 0, calls: 1, compact: false }).bytes()
}

fn repeats(random: &mut Random) -> Vec<u8> {
    let wish = Wish { records: random.between(2, 25), calls: random.between(1, 4), compact: false };
    draft::draft(random, wish).bytes()
}

/// Every class among few calls, with values that a careless judge would let
/// make later ones old.
fn errors_and_voids(random: &mut Random) -> Vec<u8> {
    let wish = Wish { records: random.between(3, 20), calls: 2, compact: false };
    let mut made = draft::draft(random, wish);
    for record in &mut made.records {
        if record[2] != b"ERROR" {
            record[10] = random.pick(&["0", "0", "1", "7"]).as_bytes().to_vec();
        }
        give_common_values(random, record);
    }
    made.bytes()
}

/// An exchange and a locator that other records are likely to have too.
fn give_common_values(random: &mut Random, record: &mut [Vec<u8>; 15]) {
    record[8] = random.pick(&["", "A", "B"]).as_bytes().to_vec();
    record[9] = random.pick(&["", "JO65", "JO65FR", "JO66"]).as_bytes().to_vec();
}

/// What a record claims: whether points, and whether a D. With the records
/// before it of its call this decides between void, duplicate and credited.
type Claims = (bool, bool);

const CLAIMS: [Claims; 4] = [(true, false), (true, true), (false, false), (false, true)];

/// A record of this call with these claims; marks are claimed as chance has it.
fn record_claiming(random: &mut Random, call: &[u8], (points, duplicate): Claims) -> [Vec<u8>; 15] {
    let mut record = draft::plain_record(random, call, false);
    give_common_values(random, &mut record);
    if !points {
        record[10] = b"0".to_vec();
    }
    record[14] = if duplicate { b"D".to_vec() } else { Vec::new() };
    record
}

/// This record and, at times, an ERROR behind it, which may claim a D as well.
fn push_try(random: &mut Random, made: &mut Draft, call: &[u8], claims: Claims) {
    made.records.push(record_claiming(random, call, claims));
    if random.chance(15) {
        let mut error = record_claiming(random, call, claims);
        draft::make_error(random, &mut error);
        made.records.push(error);
    }
}

/// Few calls, tried again and again with all claims in any order.
fn second_tries(random: &mut Random) -> Vec<u8> {
    let mut made = draft::draft(random, Wish { records: 0, calls: 1, compact: false });
    let calls: Vec<Vec<u8>> = (0..random.between(1, 3)).map(|_| values::call_alike(random)).collect();
    for _ in 0..random.between(2, 20) {
        let (call, claims) = (random.pick(&calls), *random.pick(&CLAIMS));
        push_try(random, &mut made, call, claims);
    }
    made.bytes()
}

/// Written back and then struck: a D may be left without what it repeats.
fn second_tries_struck(random: &mut Random) -> Vec<u8> {
    let log = second_tries(random);
    let written = write_log(&read(&log).expect("a valid log"));
    let written = read(&written).expect("a valid log");
    let struck: Vec<bool> = written.records.iter().map(|_| random.chance(30)).collect();
    strike_log(&written, &struck)
}

/// Three records of each of 64 calls, whose claims come in each order once.
fn second_tries_every_order(random: &mut Random) -> Vec<u8> {
    let mut made = draft::draft(random, Wish { records: 0, calls: 1, compact: false });
    for turn in 0..3 {
        for order in 0..64usize {
            let call = format!("DK{order:02}");
            let claims = CLAIMS[order >> (2 * turn) & 3];
            push_try(random, &mut made, call.as_bytes(), claims);
        }
    }
    made.bytes()
}

/// All eleven modes on records of all classes, ERRORs too: only the credited
/// ones count.
fn modes(random: &mut Random) -> Vec<u8> {
    let mut made = draft::draft(random, Wish { records: 0, calls: 1, compact: false });
    let calls: Vec<Vec<u8>> = (0..random.between(2, 40)).map(|_| values::call_alike(random)).collect();
    for _ in 0..random.between(11, 60) {
        let (call, claims) = (random.pick(&calls), *random.pick(&CLAIMS));
        push_try(random, &mut made, call, claims);
    }
    for record in &mut made.records {
        record[3] = random.pick(&MODES).as_bytes().to_vec();
    }
    made.bytes()
}

fn many_remarks(random: &mut Random) -> Vec<u8> {
    let mut made = draft::small(random);
    for _ in 0..random.between(5, 60) {
        made.remarks.push(draft::remark(random));
    }
    made.bytes()
}

/// All lines that can be 75 characters long are.
fn longest_lines(random: &mut Random) -> Vec<u8> {
    let mut made = draft::small_with_all_parts(random);
    for keyword in crate::reading::FREE {
        made.set(keyword, &vec![*random.pick(b" aZ~\x7f=;"); 69]);
    }
    made.set("MOpe1", b"AAAAAAAAAAAAAA;BBBBBBBBBBBBBB;CCCCCCCCCCCCCC;DDDDDDDDDDDDDD;EEEEEEEEE");
    made.remarks.push(vec![127; 75]);
    made.remarks.push(random.string(75, b"[]; \x7fx"));
    for record in &mut made.records {
        let is_error = record[2] == b"ERROR";
        record[0] = values::short_date(random);
        if !is_error {
            record[2] = random.string(14, b"A/9");
            record[10] = random.pick(&["999999", "100000"]).as_bytes().to_vec();
        }
        record[3] = b"9".to_vec();
        record[4] = b"59A".to_vec();
        record[5] = b"0000".to_vec();
        record[6] = b"599".to_vec();
        record[7] = b"9999".to_vec();
        record[8] = random.string(6, b"A \x7f");
        record[9] = random.pick(&["AA00AA", "RR99XX", "JO65FR"]).as_bytes().to_vec();
        for field in 11..14 {
            record[field] = b"N".to_vec();
        }
        record[14] = b"D".to_vec();
    }
    made.bytes()
}

/// Every argument and every field as short as its rule lets it be.
fn shortest_lines(random: &mut Random) -> Vec<u8> {
    let mut made = draft::small(random);
    for argument in &mut made.header {
        argument.clear();
    }
    made.set("TDate", b"19900101;20891231");
    made.set("PCall", b"///");
    made.set("PWWLo", b"AA00");
    made.set("PBand", &values::band(random));
    made.set("CQSOs", b"0;1");
    for keyword in ["CWWLs", "CExcs", "CDXCs"] {
        made.set(keyword, b"0;0;1");
    }
    for keyword in ["CQSOP", "CWWLB", "CExcB", "CDXCB", "CToSc"] {
        made.set(keyword, b"0");
    }
    made.set("CODXC", b";;0");
    made.remarks.clear();
    for record in &mut made.records {
        let is_error = record[2] == b"ERROR";
        for (place, field) in record.iter_mut().enumerate() {
            // Date, time, call and points stay.
            if ![0, 1, 2, 10].contains(&place) {
                field.clear();
            }
        }
        if is_error {
            record[0].clear();
        }
    }
    made.bytes()
}

fn written_back(random: &mut Random) -> Vec<u8> {
    let log = repeats(random);
    write_log(&read(&log).expect("a valid log"))
}

fn respelt_one_letter(random: &mut Random) -> Vec<u8> {
    let mut made = draft::small(random);
    made.keywords = draft::listed_keywords();
    let chosen = random.below(made.keywords.len());
    draft::turn_a_letter(random, &mut made.keywords[chosen]);
    made.bytes()
}

/// Every keyword with each of its letters in either case.
fn respelt_mixed(random: &mut Random) -> Vec<u8> {
    let mut made = draft::small(random);
    for keyword in &mut made.keywords {
        draft::mix(random, keyword);
    }
    made.bytes()
}

fn respelt_small(random: &mut Random) -> Vec<u8> {
    let mut made = draft::small(random);
    made.keywords.iter_mut().for_each(|keyword| keyword.make_ascii_lowercase());
    made.bytes()
}

fn respelt_capitals(random: &mut Random) -> Vec<u8> {
    let mut made = draft::small(random);
    made.keywords.iter_mut().for_each(|keyword| keyword.make_ascii_uppercase());
    made.bytes()
}

fn respelt_old(random: &mut Random) -> Vec<u8> {
    let mut made = draft::small(random);
    made.keywords = draft::old_keywords();
    made.bytes()
}

fn respelt_full(random: &mut Random) -> Vec<u8> {
    let calls = random.between(1, 2_000);
    let mut made = draft::draft(random, Wish { records: 999, calls, compact: true });
    for keyword in &mut made.keywords {
        draft::mix(random, keyword);
    }
    made.bytes()
}

fn some_hundred(random: &mut Random) -> Vec<u8> {
    let wish = Wish { records: random.between(50, 400), calls: random.between(20, 400), compact: false };
    draft::draft(random, wish).bytes()
}

fn full(random: &mut Random) -> Vec<u8> {
    let records = if random.chance(60) { 999 } else { random.between(900, 998) };
    draft::draft(random, Wish { records, calls: 2_000, compact: true }).bytes()
}

fn full_of_repeats(random: &mut Random) -> Vec<u8> {
    let calls = random.between(1, 300);
    draft::draft(random, Wish { records: 999, calls, compact: true }).bytes()
}

/// Past the middle nearly nothing but tries that brought no points.
fn full_of_second_tries(random: &mut Random) -> Vec<u8> {
    let calls = random.between(1, 600);
    let mut made = draft::draft(random, Wish { records: 999, calls, compact: true });
    for record in &mut made.records[500..] {
        if random.chance(95) {
            record[10] = b"0".to_vec();
        }
    }
    made.bytes()
}

/// 999 contacts, each with a call of its own and the mode for its place.
fn full_of_contacts(random: &mut Random, mode: impl Fn(usize) -> &'static str) -> Vec<u8> {
    let mut made = draft::draft(random, Wish { records: 0, calls: 1, compact: true });
    for place in 0..999 {
        let mut record = draft::plain_record(random, format!("DK{place:03}").as_bytes(), true);
        record[3] = mode(place).as_bytes().to_vec();
        made.records.push(record);
    }
    made.bytes()
}

fn full_of_one_mode(random: &mut Random) -> Vec<u8> {
    let mode = *random.pick(&MODES);
    full_of_contacts(random, |_| mode)
}

/// The modes in turn: 90 or 91 contacts in each.
fn full_of_all_modes(random: &mut Random) -> Vec<u8> {
    let first = random.below(MODES.len());
    full_of_contacts(random, |place| MODES[(first + place) % MODES.len()])
}

/// 999 credited records that are new in every way, with the highest points,
/// bonuses and multipliers; at times one of these is a little lower.
fn greatest_total(random: &mut Random) -> Vec<u8> {
    let mut made = draft::draft(random, Wish { records: 0, calls: 1, compact: true });
    let exact = random.chance(50);
    for keyword in ["CWWLs", "CExcs", "CDXCs"] {
        let multiplier = if exact { 99 } else { random.between(90, 99) };
        made.set(keyword, format!("0;9999;{multiplier}").as_bytes());
    }
    for place in 0..999usize {
        let mut record = draft::plain_record(random, b"", true);
        record[2] = format!("A{place:03}").into_bytes();
        record[8] = format!("{place}").into_bytes();
        let letter = b'A' + (place / 100) as u8;
        record[9] = [letter, b'R', b'0' + (place / 10 % 10) as u8, b'0' + (place % 10) as u8].to_vec();
        record[10] = if exact { b"999999".to_vec() } else { values::number(random, 6) };
        record[13] = b"N".to_vec();
        made.records.push(record);
    }
    made.bytes()
}

/// A log of records that will need more room once it is written back: its
/// claims are the shortest ones and its marks are left out.
fn growing(random: &mut Random) -> Draft {
    let records = random.between(100, 900);
    let mut made = draft::draft(random, Wish { records, calls: 900, compact: true });
    made.set("CQSOs", b"0;1");
    for keyword in ["CWWLs", "CExcs", "CDXCs"] {
        made.set(keyword, b"0;9999;99");
    }
    for keyword in ["CQSOP", "CWWLB", "CExcB", "CDXCB", "CToSc"] {
        made.set(keyword, b"0");
    }
    for record in &mut made.records {
        for mark in &mut record[11..] {
            mark.clear();
        }
        // Longer points could shrink to 0 and take the growth away again.
        record[10].truncate(1);
    }
    made
}

fn padded_to(random: &mut Random, mut made: Draft, now: usize, wanted: usize) -> Vec<u8> {
    made.pad(random, wanted - now);
    made.bytes()
}

fn longest_log(random: &mut Random) -> Vec<u8> {
    let made = if random.chance(50) { draft::small(random) } else { growing(random) };
    let now = made.bytes().len();
    padded_to(random, made, now, LONGEST_LOG)
}

fn written_length(made: &Draft) -> usize {
    write_log(&read(&made.bytes()).expect("a valid log")).len()
}

fn grows_to_the_limit(random: &mut Random) -> Vec<u8> {
    let made = growing(random);
    let now = written_length(&made);
    padded_to(random, made, now, LONGEST_LOG)
}

fn grows_over_the_limit(random: &mut Random) -> Vec<u8> {
    let made = growing(random);
    let now = written_length(&made);
    padded_to(random, made, now, LONGEST_LOG + 1)
}

fn some_place(random: &mut Random, log: &[u8]) -> usize {
    random.below(log.len())
}

fn flip_a_bit(random: &mut Random, log: &mut Vec<u8>) {
    let at = some_place(random, log);
    log[at] ^= 1 << random.below(8);
}

/// Changes the bit in which the two cases of a letter differ, mostly in the
/// part of the log that has the keywords, and whether or not it is a letter.
fn flip_a_case(random: &mut Random, log: &mut Vec<u8>) {
    let end = if random.chance(70) { log.len().min(600) } else { log.len() };
    log[random.below(end)] ^= 32;
}

fn replace_a_byte(random: &mut Random, log: &mut Vec<u8>) {
    let at = some_place(random, log);
    log[at] = *random.pick(TELLING);
}

fn insert_a_byte(random: &mut Random, log: &mut Vec<u8>) {
    let at = random.below(log.len() + 1);
    log.insert(at, *random.pick(TELLING));
}

fn delete_a_byte(random: &mut Random, log: &mut Vec<u8>) {
    let at = some_place(random, log);
    log.remove(at);
}

fn some_piece(random: &mut Random, log: &[u8]) -> (usize, usize) {
    let start = some_place(random, log);
    let length = random.between(1, 100).min(log.len() - start);
    (start, start + length)
}

fn delete_a_piece(random: &mut Random, log: &mut Vec<u8>) {
    let (start, end) = some_piece(random, log);
    log.drain(start..end);
}

fn truncate(random: &mut Random, log: &mut Vec<u8>) {
    let length = random.below(log.len());
    log.truncate(length);
}

fn duplicate_a_piece(random: &mut Random, log: &mut Vec<u8>) {
    let (start, end) = some_piece(random, log);
    let piece = log[start..end].to_vec();
    let at = if random.chance(50) { end } else { random.below(log.len() + 1) };
    log.splice(at..at, piece);
}

fn split_lines(log: &[u8]) -> Vec<Vec<u8>> {
    log.split_inclusive(|&b| b == b'\n').map(<[u8]>::to_vec).collect()
}

fn swap_lines(random: &mut Random, log: &mut Vec<u8>) {
    let mut lines = split_lines(log);
    let one = random.below(lines.len());
    let other = random.below(lines.len());
    lines.swap(one, other);
    *log = lines.concat();
}

fn duplicate_a_line(random: &mut Random, log: &mut Vec<u8>) {
    let mut lines = split_lines(log);
    let from = random.below(lines.len());
    let to = random.below(lines.len() + 1);
    lines.insert(to, lines[from].clone());
    *log = lines.concat();
}

/// Two to five damages that leave the log non-empty in between.
fn several(random: &mut Random, log: &mut Vec<u8>) {
    for _ in 0..random.between(2, 5) {
        let damage: Damage = *random.pick::<Damage>(&[flip_a_bit, replace_a_byte, insert_a_byte]);
        damage(random, log);
    }
}

fn noise(random: &mut Random) -> Vec<u8> {
    let length = random.below(400);
    let all: Vec<u8> = (0..=255).collect();
    random.string(length, &all)
}

/// The right start of a log, then lines that are fine as lines.
fn noise_lines(random: &mut Random) -> Vec<u8> {
    let lines = draft::small(random).lines();
    let kept = random.below(lines.len());
    let mut log = draft::join(&lines[..kept]);
    for _ in 0..random.below(10) {
        log.extend(values::free_text(random, 75));
        log.extend(b"\r\n");
    }
    log
}
