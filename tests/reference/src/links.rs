//! Scripts of calls on a link, with what each call is answered and what lies in
//! the caller's memory after it. Script `index` of `seed` is the same on every
//! machine.

use crate::calls::{filling, CALLS_ALIKE, EXCHANGES_ALIKE};
use crate::draft::{self, Draft, Wish};
use crate::faults;
use crate::generate::{damage, Generator};
use crate::judging::{Entry, Totals};
use crate::link::{worked_of, Lent, Link, LINK_BYTES, RECORDS_DUE, WORKED_BYTES};
use crate::random::Random;
use crate::reading::{count_line, Refusal, COUNT_START, LONGEST_LINE, LONGEST_LOG};
use crate::session::read_line;

/// One thing that is done in a script. All but the first are calls.
#[derive(Clone, Debug)]
pub enum Step {
    /// The caller sets the struct, and some bytes of the slices.
    Alter { link: Box<Link>, writes: Vec<Write> },
    Open,
    Feed { piece: Vec<u8>, lent: Lent },
    Close { lent: Lent },
}

#[derive(Clone, Copy, Debug, PartialEq, Eq)]
pub enum Slice {
    Verdicts,
    Worked,
}

#[derive(Clone, Debug)]
pub struct Write {
    pub slice: Slice,
    pub at: usize,
    pub bytes: Vec<u8>,
}

/// What is answered, and what is then in the caller's memory.
#[derive(Clone, Debug)]
pub struct Told {
    pub answer: Refusal,
    pub link: Box<Link>,
    /// All zero but of a closing that accepts.
    pub totals: Totals,
    /// The verdicts and entries that were written from `place` on.
    pub place: usize,
    pub verdicts: Vec<u8>,
    pub worked: Vec<u8>,
}

pub struct Script {
    pub tag: &'static str,
    /// What the slices have in them at first. A call may be lent less of them.
    pub verdicts: Vec<u8>,
    pub worked: Vec<u8>,
    pub steps: Vec<(Step, Option<Told>)>,
}

impl Script {
    pub fn calls(&self) -> usize {
        self.steps.iter().filter(|(_, told)| told.is_some()).count()
    }
}

/// What the struct has in it before anything is done.
pub fn found() -> Link {
    let mut bytes = [0; LINK_BYTES];
    bytes.iter_mut().enumerate().for_each(|(at, byte)| *byte = filling(at));
    Link::from_bytes(bytes)
}

/// Writes a script by playing it.
struct Player<'a> {
    random: &'a mut Random,
    logs: &'a Generator,
    script: Script,
    link: Link,
    verdicts: Vec<u8>,
    worked: Vec<u8>,
}

fn noise(random: &mut Random, length: usize) -> Vec<u8> {
    (0..length).map(|_| random.next() as u8).collect()
}

impl Player<'_> {
    /// Lays out the slices, before anything else is done.
    fn lend(&mut self, room: Lent) {
        let zero = self.random.chance(15);
        let mut lay = |length: usize| if zero { vec![0; length] } else { noise(self.random, length) };
        self.verdicts = lay(room.verdicts);
        self.worked = lay(room.worked);
        self.script.verdicts = self.verdicts.clone();
        self.script.worked = self.worked.clone();
    }

    /// All of both slices.
    fn room(&self) -> Lent {
        Lent { verdicts: self.verdicts.len(), worked: self.worked.len() }
    }

    fn note(&mut self, step: Step, answer: Refusal, totals: Totals, wrote: &[usize]) {
        let (place, end) = wrote.first().map_or((0, 0), |&first| (first, first + wrote.len()));
        let told = Told {
            answer,
            link: Box::new(self.link),
            totals,
            place,
            verdicts: self.verdicts[place..end].to_vec(),
            worked: self.worked[place * WORKED_BYTES..end * WORKED_BYTES].to_vec(),
        };
        self.script.steps.push((step, Some(told)));
    }

    fn open(&mut self) {
        self.link = Link::OPENED;
        self.note(Step::Open, self.link.refusal, Totals::default(), &[]);
    }

    fn feed(&mut self, piece: &[u8], lent: Lent) {
        let fed = self.link.feed(piece, &mut self.verdicts[..lent.verdicts], &mut self.worked[..lent.worked]);
        self.note(Step::Feed { piece: piece.to_vec(), lent }, fed.answer, Totals::default(), &fed.wrote);
    }

    fn close(&mut self, lent: Lent) {
        let (answer, totals) = self.link.close(lent);
        self.note(Step::Close { lent }, answer, totals, &[]);
    }

    fn alter(&mut self, link: Link, writes: Vec<Write>) {
        for Write { slice, at, bytes } in &writes {
            let to = match slice {
                Slice::Verdicts => &mut self.verdicts,
                Slice::Worked => &mut self.worked,
            };
            to[*at..at + bytes.len()].copy_from_slice(bytes);
        }
        self.link = link;
        self.script.steps.push((Step::Alter { link: Box::new(link), writes }, None));
    }

    /// The pieces between these places, all with both slices whole.
    fn feed_cut(&mut self, bytes: &[u8], cuts: &[usize]) {
        let mut from = 0;
        for &to in cuts.iter().chain([&bytes.len()]) {
            self.feed(&bytes[from..to], self.room());
            from = to;
        }
    }

    fn feed_somehow(&mut self, bytes: &[u8]) {
        let cuts = some_cuts(self.random, bytes);
        self.feed_cut(bytes, &cuts);
    }

    /// A call or some that are made after all is said.
    fn call_on(&mut self) {
        for _ in 0..self.random.below(4) {
            let lent = match self.random.below(4) {
                0 => Lent::of(0),
                1 => short_by_one(self.random, self.room()),
                _ => self.room(),
            };
            match self.random.below(4) {
                0 => self.close(lent),
                1 => self.feed(b"", lent),
                2 => self.feed(b"[REG1TEST;1]\r\n", lent),
                _ => {
                    let piece = some_record(self.random);
                    self.feed(&piece, lent)
                }
            }
        }
    }

    /// What may come behind a struct that was altered: of the bytes that were due
    /// some or all, and a closing.
    fn go_on(&mut self, rest: &[u8]) {
        match self.random.below(8) {
            0 => self.feed(b"", self.room()),
            1 => self.feed(&rest[..rest.len().min(1)], self.room()),
            2 => self.feed(&rest[..line_end(rest)], self.room()),
            3 => self.feed(b"\n", self.room()),
            4 => self.feed(b"\r\n", self.room()),
            5 => {
                let at = self.random.below(rest.len() + 1);
                self.feed_cut(rest, &[at]);
            }
            6 => self.feed(rest, self.room()),
            _ => {}
        }
        if self.random.chance(60) {
            self.close(self.room());
        }
        if self.random.chance(15) {
            self.call_on();
        }
    }
}

/// Behind the first line end, or the end of all.
fn line_end(bytes: &[u8]) -> usize {
    bytes.iter().position(|&byte| byte == b'\n').map_or(bytes.len(), |at| at + 1)
}

fn some_record(random: &mut Random) -> Vec<u8> {
    let mut record = draft::plain_record(random, b"DK1AA", false).join(&b';');
    record.extend(b"\r\n");
    record
}

fn short_by_one(random: &mut Random, lent: Lent) -> Lent {
    let Lent { verdicts, worked } = lent;
    match random.below(3) {
        0 => Lent { verdicts: verdicts.saturating_sub(1), worked },
        1 => Lent { verdicts, worked: worked.saturating_sub(1) },
        _ => Lent { verdicts: verdicts.saturating_sub(1), worked: worked.saturating_sub(1) },
    }
}

/// Enough for so many records, mostly exactly.
fn enough(random: &mut Random, records: usize) -> Lent {
    let Lent { verdicts, worked } = Lent::of(records);
    match random.below(10) {
        0..=5 => Lent { verdicts, worked },
        6 => Lent { verdicts: verdicts + 1, worked },
        7 => Lent { verdicts, worked: worked + 1 },
        _ => Lent { verdicts: verdicts + random.below(6), worked: worked + random.below(60) },
    }
}

// ---- Logs ----

/// What the count line of a log says, if it says a number that may be.
fn announced(log: &[u8]) -> Option<usize> {
    let lines = log.split(|&byte| byte == b'\n').map(|line| line.strip_suffix(b"\r").unwrap_or(line));
    lines.skip(draft::FIRST_REMARK).find_map(count_line)?.ok()
}

/// A few records, or a few more with many repeats.
fn good_draft(random: &mut Random) -> Draft {
    let wish = match random.below(4) {
        0 => Wish { records: random.between(2, 25), calls: random.between(1, 4), compact: false },
        1 => Wish { records: random.between(1, 3), calls: 2, compact: true },
        _ => Wish { records: random.below(13), calls: random.between(1, 12), compact: false },
    };
    let mut made = draft::draft(random, wish);
    if random.chance(30) {
        make_alike(random, &mut made);
    }
    made
}

/// Calls, squares and exchanges that differ at their ends alone.
fn make_alike(random: &mut Random, made: &mut Draft) {
    for record in made.records.iter_mut().filter(|record| record[2] != b"ERROR") {
        record[2] = random.pick(&CALLS_ALIKE).as_bytes().to_vec();
        record[8] = random.pick(&EXCHANGES_ALIKE).as_bytes().to_vec();
        record[9] = random.pick(&["JO65", "JO66", "JO65AA", "JO66AA", "JN65", ""]).as_bytes().to_vec();
    }
}

fn good_log(random: &mut Random) -> Vec<u8> {
    good_draft(random).bytes()
}

/// Empty where it may be, with few records, so that it is short enough for a call
/// for each of its bytes.
fn short_log(random: &mut Random) -> Vec<u8> {
    let mut made = good_draft(random);
    made.remarks.truncate(2);
    for keyword in crate::reading::FREE {
        made.set(keyword, b"");
    }
    made.records.truncate(6);
    made.bytes()
}

/// Any log of those that go to the other functions, none of the long ones.
fn any_log(player: &mut Player) -> Vec<u8> {
    loop {
        let index = player.random.next() % 100_000;
        let log = player.logs.trial(index).log;
        if log.len() < 6_000 {
            return log;
        }
    }
}

/// A log with a fault or with damage, so that most are refused.
fn bad_log(random: &mut Random) -> Vec<u8> {
    if random.chance(60) {
        let log = faults::some_fault(random);
        return if log.len() < 6_000 { log } else { good_log(random) };
    }
    let mut log = good_log(random);
    damage(random, &mut log);
    log
}

// ---- Cuts ----

/// Where a log is cut with most effect: around the ends of lines, within the
/// count line, and around the last LF.
fn telling_places(log: &[u8]) -> Vec<usize> {
    let mut places: Vec<usize> = Vec::new();
    for (at, _) in log.iter().enumerate().filter(|(_, &byte)| byte == b'\n') {
        places.extend([at.saturating_sub(1), at, at + 1, at + 2]);
    }
    if let Some(at) = log.windows(COUNT_START.len()).position(|part| part == COUNT_START) {
        places.extend((at..at + COUNT_START.len() + 6).flat_map(|place| [place, place]));
    }
    places.extend([log.len().saturating_sub(1), log.len(), 0]);
    places.retain(|&place| place <= log.len());
    places
}

fn some_place(random: &mut Random, log: &[u8]) -> usize {
    if random.chance(70) {
        *random.pick(&telling_places(log))
    } else {
        random.below(log.len() + 1)
    }
}

/// Some places that tell and some that do not; two that are the same make a
/// piece of no bytes.
fn few_cuts(random: &mut Random, log: &[u8]) -> Vec<usize> {
    let mut cuts: Vec<usize> = (0..random.below(12)).map(|_| some_place(random, log)).collect();
    if random.chance(50) && !cuts.is_empty() {
        cuts.push(cuts[0]);
    }
    cuts.sort_unstable();
    cuts
}

fn cuts_of(log: &[u8], size: usize) -> Vec<usize> {
    (1..log.len().div_ceil(size)).map(|piece| piece * size).collect()
}

fn some_cuts(random: &mut Random, log: &[u8]) -> Vec<usize> {
    match random.below(10) {
        0..=4 => few_cuts(random, log),
        5 => cuts_of(log, 64),
        6 => cuts_of(log, 4_096),
        7 => {
            let size = random.between(2, 100);
            cuts_of(log, size)
        }
        8 if log.len() < 1_500 => cuts_of(log, 1),
        _ => Vec::new(),
    }
}

// ---- Scripts ----

type Play = fn(&mut Player);

/// The kinds of scripts and the share of each.
const SCRIPTS: &[(&str, usize, Play)] = &[
    ("link/byte-by-byte", 3, byte_by_byte),
    ("link/good", 10, good),
    ("link/any", 14, any),
    ("link/bad", 14, bad),
    ("link/nothing-in-between", 3, nothing_in_between),
    ("link/cut-short", 6, cut_short),
    ("link/bytes-behind", 4, bytes_behind),
    ("link/opened-in-the-middle", 4, opened_in_the_middle),
    ("link/near-the-limit", 6, near_the_limit),
    ("link/settled-at-the-limit", 8, settled_at_the_limit),
    ("slices/short-at-the-count-line", 5, short_at_the_count_line),
    ("slices/short-later", 6, short_later),
    ("slices/any-before-the-count-line", 4, any_before_the_count_line),
    ("altered/slices", 8, altered_slices),
    ("altered/worked-or-not", 8, worked_or_not),
    ("altered/count", 3, |player| altered(player, alter_count)),
    ("altered/lines", 3, |player| altered(player, alter_lines)),
    ("altered/held", 3, |player| altered(player, alter_held)),
    ("altered/returned", 3, |player| altered(player, alter_returned)),
    ("altered/stage", 3, |player| altered(player, alter_stage)),
    ("altered/every-stage", 3, every_stage),
    ("altered/records-and-done", 5, |player| altered(player, alter_records)),
    ("altered/record-line", 4, altered_record_line),
    ("altered/head-line", 3, altered_head_line),
    ("altered/behind-the-line", 2, |player| altered(player, alter_behind_the_line)),
    ("altered/sums", 4, sums_run_over),
    ("altered/refusal", 3, |player| altered(player, alter_refusal)),
    ("altered/line-and-field-alone", 2, |player| altered(player, alter_line_and_field)),
    ("altered/all", 6, all_altered),
    ("altered/totals", 4, totals_of_any_numbers),
    ("altered/totals-out-of-reach", 4, totals_out_of_reach),
];

/// These take as long as many others, so they come seldom.
const LARGE: &[(&str, Play)] = &[
    ("link/full", full),
    ("link/full-in-64", full_in_64),
    ("altered/many-records", many_records),
    ("link/full-of-repeats", full_of_repeats),
    ("link/some-hundred", some_hundred),
];
const BETWEEN_LARGE: u64 = 40;
/// Tens of thousands of calls.
const LARGEST: (&str, Play) = ("link/full-byte-by-byte", full_byte_by_byte);
const BETWEEN_LARGEST: u64 = 1_000;

pub fn tags() -> Vec<&'static str> {
    let large = LARGE.iter().map(|kind| kind.0).chain([LARGEST.0]);
    SCRIPTS.iter().map(|kind| kind.0).chain(large).collect()
}

/// The kinds in turn, each as often as its share.
fn kind(index: u64) -> (&'static str, Play) {
    if index % BETWEEN_LARGEST == BETWEEN_LARGEST / 2 {
        return LARGEST;
    }
    let (round, place) = (index / BETWEEN_LARGE, index % BETWEEN_LARGE);
    if place == BETWEEN_LARGE - 1 {
        return LARGE[(round % LARGE.len() as u64) as usize];
    }
    let shares: usize = SCRIPTS.iter().map(|kind| kind.1).sum();
    // A step that has no divisor in common with the shares comes to all of them.
    let mut turn = ((index - round) as usize).wrapping_mul(61) % shares;
    for &(tag, share, play) in SCRIPTS {
        if turn < share {
            return (tag, play);
        }
        turn -= share;
    }
    unreachable!("the turn is below the sum of the shares")
}

/// Makes the scripts of a seed.
pub struct Links {
    seed: u64,
    logs: Generator,
}

impl Links {
    pub fn new(seed: u64) -> Links {
        Links { seed, logs: Generator::new(seed) }
    }

    pub fn script(&self, index: u64) -> Script {
        let mut random = Random::new(self.seed ^ 0x11_4B5, index);
        let (tag, play) = kind(index);
        let script = Script { tag, verdicts: Vec::new(), worked: Vec::new(), steps: Vec::new() };
        let (verdicts, worked) = (Vec::new(), Vec::new());
        let mut player = Player { random: &mut random, logs: &self.logs, script, link: found(), verdicts, worked };
        play(&mut player);
        player.script
    }
}

fn enough_for(random: &mut Random, log: &[u8]) -> Lent {
    let records = announced(log).unwrap_or(3);
    enough(random, records)
}

/// A log from its opening to its closing and beyond, with slices that suffice.
fn play_log(player: &mut Player, log: &[u8], cuts: &[usize]) {
    let room = enough_for(player.random, log);
    play_with(player, log, cuts, room);
}

fn play_with(player: &mut Player, log: &[u8], cuts: &[usize], room: Lent) {
    player.lend(room);
    player.open();
    player.feed_cut(log, cuts);
    player.close(player.room());
    player.call_on();
}

fn play_somehow(player: &mut Player, log: &[u8]) {
    let cuts = some_cuts(player.random, log);
    play_log(player, log, &cuts);
}

fn byte_by_byte(player: &mut Player) {
    let log = if player.random.chance(60) { short_log(player.random) } else { bad_log(player.random) };
    let front = player.random.below(900).min(log.len());
    // All of it, or what is behind some of it.
    let cuts: Vec<usize> = if player.random.chance(40) { (1..log.len()).collect() } else { (front..log.len()).collect() };
    play_log(player, &log, &cuts);
}

fn good(player: &mut Player) {
    let log = good_log(player.random);
    play_somehow(player, &log);
}

fn any(player: &mut Player) {
    let log = any_log(player);
    play_somehow(player, &log);
}

fn bad(player: &mut Player) {
    let log = bad_log(player.random);
    play_somehow(player, &log);
}

/// Calls without bytes wherever something could happen in them.
fn nothing_in_between(player: &mut Player) {
    let log = short_log(player.random);
    let mut cuts = few_cuts(player.random, &log);
    cuts.extend(cuts.clone());
    cuts.extend([0, log.len(), log.len()]);
    cuts.sort_unstable();
    play_log(player, &log, &cuts);
}

/// The bytes end somewhere, and at times the rest comes behind the closing.
fn cut_short(player: &mut Player) {
    let log = good_log(player.random);
    let at = some_place(player.random, &log);
    play_somehow(player, &log[..at]);
    if player.random.chance(50) {
        player.feed(&log[at..], player.room());
        player.close(player.room());
    }
}

/// A byte too many, or several, in the same call or in another.
fn bytes_behind(player: &mut Player) {
    let mut log = good_log(player.random);
    let end = log.len();
    match player.random.below(4) {
        0 => log.extend(b"\r\n"),
        1 => log.push(*player.random.pick(b"\x00\n\r A\xff")),
        2 => log.extend(some_record(player.random)),
        _ => log.extend(log.clone()),
    }
    let cuts = player.random.pick(&[vec![0, end], vec![end, end], vec![end - 1], vec![end - 1, end], vec![]]).clone();
    play_log(player, &log, &cuts);
}

fn opened_in_the_middle(player: &mut Player) {
    let (first, second) = (good_log(player.random), good_log(player.random));
    let most = announced(&first).max(announced(&second)).unwrap_or(0);
    let room = enough(player.random, most);
    player.lend(room);
    if player.random.chance(80) {
        player.open();
    }
    for _ in 0..player.random.between(1, 3) {
        let at = some_place(player.random, &first);
        player.feed_somehow(&first[..at]);
        match player.random.below(4) {
            0 => player.close(player.room()),
            1 => player.feed(b"\x00", player.room()),
            _ => {}
        }
        player.open();
    }
    player.feed_somehow(&second);
    player.close(player.room());
    player.call_on();
    player.open();
    player.close(player.room());
}

/// A log of some length near the most that a log can have, with records at its
/// end.
fn long_log(random: &mut Random, length: usize) -> Vec<u8> {
    let mut made = good_draft(random);
    let now = made.bytes().len();
    made.pad(random, length - now);
    made.bytes()
}

/// The front in large pieces, and the last bytes up to the limit and beyond one
/// by one, or in a piece that goes over it.
fn play_long(player: &mut Player, log: &[u8], room: Lent) {
    let near = LONGEST_LOG - player.random.below(80);
    let size = *player.random.pick(&[4_096, 30_000, 65_535, 65_536]);
    let mut cuts = cuts_of(log, size);
    match player.random.below(4) {
        0 => {}
        1 => cuts.extend([LONGEST_LOG, LONGEST_LOG]),
        _ => cuts.extend(near..log.len()),
    }
    cuts.retain(|&cut| cut <= log.len());
    cuts.sort_unstable();
    play_with(player, log, &cuts, room);
}

fn near_the_limit(player: &mut Player) {
    let length = match player.random.below(8) {
        0 => LONGEST_LOG - 1,
        1..=3 => LONGEST_LOG,
        4..=5 => LONGEST_LOG + 1,
        _ => LONGEST_LOG + player.random.below(200),
    };
    let mut log = long_log(player.random, length);
    if player.random.chance(30) {
        log.extend(player.random.pick(&[&b"\r"[..], b"\n", b"A", b"\r\n", b"\x00\x00"]).iter());
    }
    let room = enough_for(player.random, &log);
    play_long(player, &log, room);
}

/// The byte before the last that is read, that one, or the one behind it is such
/// that a refusal comes with it: a bad byte, the LF of a bad record, or the LF of
/// a count line that asks for more than is lent.
fn settled_at_the_limit(player: &mut Player) {
    let mut made = good_draft(player.random);
    let ends_at = LONGEST_LOG - 1 + player.random.below(3);
    let sort = player.random.below(4);
    match sort {
        0 | 1 => {
            let mut record = draft::plain_record(player.random, b"DK1AA", false);
            record[player.random.below(15)] = b"?:".to_vec();
            made.records.push(record);
        }
        2 => made.records.clear(),
        _ => {}
    }
    let now = made.bytes().len();
    made.pad(player.random, ends_at - now);
    let mut log = made.bytes();
    let mut room = Lent::of(made.records.len());
    match sort {
        2 => {
            // One record is announced, and none is there yet.
            log[ends_at - b"0]\r\n".len()] = b'1';
            room = short_by_one(player.random, Lent::of(1));
        }
        3 => log[ends_at - 1] = *player.random.pick(b"\n\x00\r;\xff"),
        _ => {}
    }
    log.extend(some_record(player.random));
    play_long(player, &log, room);
}

/// Too little for N when the count line is finished, in any of the two slices.
fn short_at_the_count_line(player: &mut Player) {
    let made = good_draft(player.random);
    let (log, records) = (made.bytes(), made.records.len());
    let count_ends = draft::join(&made.lines()[..made.first_record()]).len();
    player.lend(Lent::of(records));
    let lent = match player.random.below(3) {
        0 => Lent { verdicts: player.random.below(records + 1), worked: records * WORKED_BYTES },
        1 => Lent { verdicts: records, worked: player.random.below(records * WORKED_BYTES + 1) },
        _ => short_by_one(player.random, player.room()),
    };
    let at = count_ends - player.random.between(1, 30);
    player.open();
    player.feed(&log[..at], player.room());
    match player.random.below(3) {
        // The LF of the count line alone, all up to it, or more.
        0 => {
            player.feed(&log[at..count_ends - 1], player.room());
            player.feed(b"\n", lent);
        }
        1 => player.feed(&log[at..count_ends], lent),
        _ => player.feed(&log[at..], lent),
    }
    // What suffices comes too late.
    player.feed(&log[count_ends..], player.room());
    player.close(player.room());
    player.call_on();
}

/// One call behind the count line is lent too little, with bytes or without.
fn short_later(player: &mut Player) {
    let made = good_draft(player.random);
    let (log, records) = (made.bytes(), made.records.len());
    let count_ends = draft::join(&made.lines()[..made.first_record()]).len();
    let room = enough(player.random, records);
    player.lend(room);
    let short = match player.random.below(3) {
        0 => Lent { verdicts: player.random.below(records + 1), worked: room.worked },
        1 => Lent { verdicts: room.verdicts, worked: player.random.below(records * WORKED_BYTES + 1) },
        _ => short_by_one(player.random, Lent::of(records)),
    };
    player.open();
    let at = count_ends + player.random.below(log.len() - count_ends + 1);
    player.feed_somehow(&log[..at]);
    match player.random.below(6) {
        0 => player.feed(b"", short),
        1 => player.feed(b"\x00", short),
        2 => player.feed(&log[at..], short),
        3 => player.close(short),
        _ => {
            player.feed(&log[at..], player.room());
            player.close(short);
        }
    }
    player.feed(&log[at..], player.room());
    player.close(player.room());
}

/// Whatever is lent before the count line is finished, and what suffices behind.
fn any_before_the_count_line(player: &mut Player) {
    let made = good_draft(player.random);
    let (log, records) = (made.bytes(), made.records.len());
    let count_ends = draft::join(&made.lines()[..made.first_record()]).len();
    let room = enough(player.random, records);
    player.lend(room);
    player.open();
    let mut from = 0;
    let front = &log[..count_ends - 1];
    for to in few_cuts(player.random, front) {
        let lent = Lent { verdicts: player.random.below(room.verdicts + 1), worked: player.random.below(room.worked + 1) };
        player.feed(&front[from..to], lent);
        from = to;
    }
    for to in few_cuts(player.random, &log).into_iter().filter(|&to| to >= count_ends).chain([log.len()]) {
        let lent = Lent {
            verdicts: player.random.between(records, room.verdicts),
            worked: player.random.between(records * WORKED_BYTES, room.worked),
        };
        player.feed(&log[from..to], lent);
        from = to;
    }
    player.close(Lent::of(records));
    player.call_on();
}

// ---- Altered ----

/// A log with records, some of which can bring nothing new, and where its records
/// begin.
fn log_with_records(random: &mut Random) -> (Vec<u8>, usize) {
    let wish = Wish { records: random.between(2, 12), calls: random.between(1, 8), compact: false };
    let mut made = draft::draft(random, wish);
    for record in &mut made.records {
        if random.chance(30) {
            [8, 9, 13].into_iter().for_each(|field| record[field].clear());
        }
    }
    (made.bytes(), draft::join(&made.lines()[..made.first_record()]).len())
}

/// A struct as a run of calls made it, altered in one way after another.
fn altered(player: &mut Player, change: fn(&mut Random, &mut Link)) {
    let (log, records_begin) = log_with_records(player.random);
    let records = announced(&log).expect("a count line");
    let room = enough(player.random, records);
    player.lend(room);
    player.open();
    let at = if player.random.chance(60) {
        records_begin + some_place(player.random, &log[records_begin..])
    } else {
        some_place(player.random, &log)
    };
    player.feed(&log[..at], player.room());
    let reached = player.link;
    for _ in 0..player.random.between(3, 8) {
        let mut link = reached;
        change(player.random, &mut link);
        player.alter(link, Vec::new());
        player.go_on(&log[at..]);
    }
}

fn alter_count(random: &mut Random, link: &mut Link) {
    let (lines, some) = (link.lines, random.below(400) as u32);
    link.count = match random.below(6) {
        0 => *random.pick(&[65_536, 65_537, 1 << 16 | link.count, 1 << 31, u32::MAX]),
        1 => *random.pick(&[lines, lines.saturating_sub(1), lines + 1, 0]),
        2 => *random.pick(&[65_535, 65_534, 65_533]),
        3 | 4 => 65_535 - some,
        _ => random.next() as u32,
    };
}

fn alter_lines(random: &mut Random, link: &mut Link) {
    let count = link.count;
    link.lines = match random.below(4) {
        0 => *random.pick(&[count, count + 1, 0, 1]),
        1 => *random.pick(&[u32::MAX, 1 << 16, 65_535, 1 << 31]),
        2 => random.below(count as usize + 2) as u32,
        _ => random.next() as u32,
    };
    if random.chance(20) {
        (link.count, link.lines) = (65_535, 65_535 - random.below(3) as u32);
    }
}

/// Whatever lies in the line is then in it, or the other way round.
fn alter_held(random: &mut Random, link: &mut Link) {
    let held = link.held;
    link.held = match random.below(4) {
        0 => *random.pick(&[75, 76, 77, 74, 255, 256, 65_535, 256 + held]),
        1 => held.wrapping_add(1),
        2 => held.wrapping_sub(1),
        _ => random.below(76) as u16,
    };
    if random.chance(50) {
        link.line.iter_mut().skip(held.into()).for_each(|byte| *byte = b'0' + random.below(12) as u8);
    }
}

fn alter_returned(random: &mut Random, link: &mut Link) {
    link.returned = *random.pick(&[0, 1, 2, 3, 10, 13, 127, 128, 254, 255]);
}

fn alter_stage(random: &mut Random, link: &mut Link) {
    link.stage = match random.below(5) {
        0 => *random.pick(&[38, 39, 40, 41, 255, 256, 65_534, 65_535]),
        1 => link.stage.wrapping_add(1),
        2 => link.stage.saturating_sub(1),
        3 => random.below(42) as u16,
        _ => random.next() as u16,
    };
}

fn alter_records(random: &mut Random, link: &mut Link) {
    let (records, done) = (link.records, link.done);
    match random.below(9) {
        0 => link.records = *random.pick(&[0, done, done.saturating_sub(1), done + 1, records + 1, 999, 1_000, 65_535]),
        1 => link.records = random.below(records as usize + 3) as u16,
        2 => link.done = *random.pick(&[0, records, records + 1, records.saturating_sub(1), 999, 65_535]),
        3 | 4 => link.done = random.below(records as usize + 2) as u16,
        5 => (link.records, link.done) = (done, records),
        6 => (link.records, link.done) = (0, 0),
        _ => link.done = done.saturating_sub(random.between(1, 3) as u16),
    }
    if random.chance(20) {
        link.stage = *random.pick(&[39, 40, 1_000, 65_535]);
    }
}

/// Bytes of the line behind what it holds: no answer may rest on them.
fn alter_behind_the_line(random: &mut Random, link: &mut Link) {
    let from = usize::from(link.held);
    for byte in &mut link.line[from..] {
        *byte = *random.pick(b"\x00\x01\n\r;09ANZ~\x7f\x80\xff");
    }
}

/// Counts on the way from the highest number to zero.
fn alter_sums(random: &mut Random, link: &mut Link) {
    let high = |random: &mut Random| u16::MAX - random.below(2) as u16;
    let all = random.chance(60);
    for number in link.classes.iter_mut().chain(&mut link.modes) {
        if all || random.chance(40) {
            *number = high(random);
        }
    }
    for number in [&mut link.squares, &mut link.exchanges, &mut link.countries] {
        if all || random.chance(40) {
            *number = high(random);
        }
    }
    if all || random.chance(60) {
        link.points = u32::MAX - *random.pick(&[0, 1, 100, 999_999, 5_000_000]);
    }
}

/// Record by record from there on, so that each sum is seen as it runs over.
fn sums_run_over(player: &mut Player) {
    let (log, records_begin) = log_with_records(player.random);
    player.lend(Lent::of(announced(&log).expect("a count line")));
    player.open();
    player.feed(&log[..records_begin], player.room());
    let reached = player.link;
    for _ in 0..player.random.between(2, 4) {
        let mut link = reached;
        alter_sums(player.random, &mut link);
        player.alter(link, Vec::new());
        for record in log[records_begin..].split_inclusive(|&byte| byte == b'\n') {
            player.feed(record, player.room());
        }
        player.close(player.room());
    }
}

fn alter_refusal(random: &mut Random, link: &mut Link) {
    let number = match random.below(4) {
        0 => *random.pick(&[256, 65_536, 1 << 24, 1 << 31, u32::MAX]),
        1 => random.next() as u32 | 1,
        _ => random.between(1, 20) as u32,
    };
    let (line, field) = (*random.pick(&[0, 1, 70, u32::MAX]), *random.pick(&[0, 1, 15, u32::MAX]));
    link.refusal = Refusal { number, line, field };
    // A kept refusal is told whatever else the struct is.
    match random.below(4) {
        0 => link.count = u32::MAX,
        1 => (link.stage, link.records) = (RECORDS_DUE, 65_535),
        2 => link.held = 76,
        _ => {}
    }
}

/// No refusal, and yet a line and a field of one.
fn alter_line_and_field(random: &mut Random, link: &mut Link) {
    let (line, field) = (random.below(3) as u32, random.next() as u32 >> random.below(32));
    link.refusal = Refusal { number: 0, line, field };
}

/// What is due is set, and the line that belongs there comes, or another.
fn every_stage(player: &mut Player) {
    let made = good_draft(player.random);
    let lines = made.lines();
    player.lend(Lent::of(made.records.len()));
    player.open();
    for _ in 0..player.random.between(5, 12) {
        let stage = player.random.below(40);
        let line = if player.random.chance(80) { stage } else { player.random.below(lines.len()) };
        // With N of 0 there may be no line for the last one.
        let line = line.min(lines.len() - 1);
        let link = Link { stage: stage as u16, count: 40, records: made.records.len() as u16, ..Link::OPENED };
        player.alter(link, Vec::new());
        let piece = draft::join(&lines[line..(line + player.random.between(1, 3)).min(lines.len())]);
        player.feed_somehow(&piece);
        if player.random.chance(30) {
            player.close(player.room());
        }
    }
}

/// Bytes that lines never have, and some that they have.
const ODD: &[u8] = b"\x00\x01\t\n\r\x1f\x80\x9f\xa0\xff;;; 09AZaz\x7f";

/// The front of a line in the struct, as if it had come, with some of its bytes
/// altered; what is left of the line is yet to come.
fn hold_front(random: &mut Random, link: &mut Link, line: &[u8]) -> Vec<u8> {
    let most = line.len().min(LONGEST_LINE);
    let held = if random.chance(60) { most } else { random.below(most + 1) };
    link.held = held as u16;
    link.line[..held].copy_from_slice(&line[..held]);
    for _ in 0..random.between(1, 2) {
        if held > 0 {
            link.line[random.below(held)] = *random.pick(ODD);
        }
    }
    if held == line.len() && random.chance(60) {
        link.returned = 1;
        return b"\n".to_vec();
    }
    [&line[held..], b"\r\n"].concat()
}

/// The rest of a line whose front lies in the struct, and at times more.
fn finish(player: &mut Player, mut rest: Vec<u8>) {
    if player.random.chance(30) {
        rest.extend(some_record(player.random));
    }
    player.feed(&rest, player.room());
    player.close(player.room());
}

fn altered_record_line(player: &mut Player) {
    let (log, records_begin) = log_with_records(player.random);
    player.lend(Lent::of(announced(&log).expect("a count line")));
    player.open();
    let at = records_begin + line_end(&log[records_begin..]);
    player.feed(&log[..at], player.room());
    let reached = player.link;
    for _ in 0..player.random.between(4, 10) {
        let mut link = reached;
        let mut record = draft::plain_record(player.random, b"OZ1AA", false);
        if player.random.chance(30) {
            // The exchange is the one field with nearly any character.
            record[8] = vec![*player.random.pick(ODD)];
        }
        let rest = hold_front(player.random, &mut link, &record.join(&b';'));
        player.alter(link, Vec::new());
        finish(player, rest);
    }
}

/// Free text and the exchange are the arguments with nearly any character.
const NEARLY_ANY: [usize; 3] = [1, 5, 6];

fn altered_head_line(player: &mut Player) {
    let mut made = good_draft(player.random);
    made.set("PExch", b"ABC");
    let lines = made.lines();
    player.lend(Lent::of(made.records.len()));
    for _ in 0..player.random.between(4, 12) {
        let stage = if player.random.chance(25) { *player.random.pick(&NEARLY_ANY) } else { player.random.below(39) };
        let mut link = Link { stage: stage as u16, count: 65, lines: stage as u32, ..Link::OPENED };
        let rest = hold_front(player.random, &mut link, &lines[stage]);
        player.alter(link, Vec::new());
        finish(player, rest);
    }
}

/// A struct of any bytes, or of any that are not refused at once.
fn all_altered(player: &mut Player) {
    let (log, records_begin) = log_with_records(player.random);
    player.lend(Lent::of(40));
    for _ in 0..player.random.between(4, 10) {
        let bytes = noise(player.random, LINK_BYTES);
        let mut link = Link::from_bytes(bytes.try_into().expect("so many bytes"));
        if player.random.chance(90) {
            link.refusal = Link::OPENED.refusal;
        }
        if player.random.chance(85) {
            link.count %= 65_536;
            link.lines %= link.count + 1;
            link.held %= 76;
            link.stage %= 45;
            link.records %= 41;
            link.done %= 41;
            link.returned %= 3;
        }
        if player.random.chance(40) {
            (link.held, link.stage) = (0, RECORDS_DUE);
        }
        if player.random.chance(30) {
            link.returned = 0;
        }
        player.alter(link, Vec::new());
        let from = if player.random.chance(70) { records_begin } else { player.random.below(log.len()) };
        player.go_on(&log[from..]);
    }
}

/// Numbers that no log has, in a struct that is ready to be closed. The total
/// keeps within 64 bits.
fn totals_of_any_numbers(player: &mut Player) {
    player.lend(Lent::of(3));
    for _ in 0..8 {
        let link = with_sums(player.random);
        player.alter(link, Vec::new());
        player.close(player.room());
        player.call_on();
    }
}

/// One number is just beyond what the others allow, or all of them are wild.
fn totals_out_of_reach(player: &mut Player) {
    player.lend(Lent::of(3));
    for _ in 0..8 {
        let mut link = with_sums(player.random);
        let credited = link.classes[0];
        let place = player.random.below(3);
        match player.random.below(11) {
            0 => link.rates[2 * place] = 10_000,
            1 => link.rates[2 * place + 1] = *player.random.pick(&[0, 100]),
            2 => link.classes[1] = 1_000 - credited - link.classes[2] - link.classes[3],
            3 => link.points = u32::from(credited) * 999_999 + 1,
            4 => link.points = u32::from(credited).saturating_sub(1),
            5 => link.squares = credited + 1,
            6 => link.exchanges = credited + 1,
            7 => link.countries = credited + 1,
            8 => link.modes[player.random.below(11)] += 1,
            9 => {
                link = Link { points: 0, squares: 0, exchanges: 0, countries: 0, modes: [0; 11], ..link };
                link.classes[0] = 0;
                link.classes[2] = player.random.below(2) as u16;
            }
            _ => link = ended(player.random),
        }
        player.alter(link, Vec::new());
        player.close(player.room());
    }
}

/// A link whose log is whole, with sums that a log can come to.
fn with_sums(random: &mut Random) -> Link {
    let mut link = ended(random);
    let credited = random.below(400);
    let duplicates = if credited == 0 { 0 } else { random.below(200) };
    link.classes = [credited, random.below(200), duplicates, random.below(199)].map(|count| count as u16);
    link.points = (credited + random.below(credited * 999_998 + 1)) as u32;
    link.squares = random.below(credited + 1) as u16;
    link.exchanges = random.below(credited + 1) as u16;
    link.countries = random.below(credited + 1) as u16;
    link.modes = [0; 11];
    for _ in 0..credited {
        link.modes[random.below(11)] += 1;
    }
    for place in [0, 2, 4] {
        link.rates[place] = random.below(10_000) as u16;
        link.rates[place + 1] = random.between(1, 99) as u16;
    }
    link
}

fn ended(random: &mut Random) -> Link {
    let bytes = noise(random, LINK_BYTES);
    let link = Link::from_bytes(bytes.try_into().expect("so many bytes"));
    let records = random.below(4) as u16;
    let done = if random.chance(80) { records } else { records + random.below(9) as u16 };
    let stage = *random.pick(&[RECORDS_DUE, RECORDS_DUE, 40, 65_535]);
    let (refusal, count) = (Link::OPENED.refusal, link.count % 65_536);
    Link { refusal, count, lines: link.lines % (count + 1), records, done, stage, held: 0, returned: 0, ..link }
}

/// The bytes of the slices are altered between two calls: those of records that
/// were taken, those of others, and any of all.
fn altered_slices(player: &mut Player) {
    let (log, records_begin) = log_with_records(player.random);
    let records = announced(&log).expect("a count line");
    let room = enough(player.random, records);
    player.lend(room);
    player.open();
    let mut from = 0;
    let mut cuts: Vec<usize> = (0..player.random.between(1, 5)).map(|_| records_begin + player.random.below(log.len() - records_begin)).collect();
    cuts.sort_unstable();
    for to in cuts {
        player.feed(&log[from..to], player.room());
        let mut writes = Vec::new();
        for _ in 0..player.random.between(1, 5) {
            let (slice, all) = *player.random.pick(&[(Slice::Verdicts, room.verdicts), (Slice::Worked, room.worked)]);
            let at = player.random.below(all);
            let length = player.random.between(1, (all - at).min(WORKED_BYTES));
            let bytes = if player.random.chance(30) { vec![0; length] } else { noise(player.random, length) };
            writes.push(Write { slice, at, bytes });
        }
        player.alter(player.link, writes);
        from = to;
    }
    player.feed(&log[from..], player.room());
    player.close(player.room());
}

/// Entries that have what the next record has, in part or whole, before the
/// place where it comes and from there on; and entries that have it no more.
fn worked_or_not(player: &mut Player) {
    let wish = Wish { records: player.random.between(4, 14), calls: 3, compact: false };
    let mut made = draft::draft(player.random, wish);
    if player.random.chance(50) {
        make_alike(player.random, &mut made);
    }
    let (lines, first) = (made.lines(), made.first_record());
    let records = made.records.len();
    let room = enough(player.random, records);
    player.lend(room);
    player.open();
    player.feed(&draft::join(&lines[..first]), player.room());
    for done in 0..records {
        let line = &lines[first + done];
        if player.random.chance(70) {
            let write = entry_for(player.random, line, done, records);
            player.alter(player.link, vec![write]);
        }
        player.feed(&draft::join(&[line.clone()]), player.room());
    }
    player.close(player.room());
}

/// What is kept of a record that is new, or a part of it, somewhere.
fn entry_for(random: &mut Random, line: &[u8], done: usize, records: usize) -> Write {
    let entry = Entry::of(line, &read_line(line).expect("a good line"));
    let mut bytes = worked_of(&entry, 0);
    let part = random.pick(&[0..24, 0..14, 14..18, 18..24]).clone();
    match random.below(6) {
        0 => bytes.fill(0),
        1 => {
            let at = random.below(WORKED_BYTES);
            bytes[at] ^= 1 << random.below(8);
        }
        _ => {}
    }
    // Mostly among the records that were taken, and else behind them.
    let place = if done > 0 && random.chance(65) { random.below(done) } else { random.between(done, records - 1) };
    Write { slice: Slice::Worked, at: place * WORKED_BYTES + part.start, bytes: bytes[part].to_vec() }
}

// ---- Large ----

fn full_log(random: &mut Random, calls: usize) -> Vec<u8> {
    let records = if random.chance(70) { 999 } else { random.between(900, 998) };
    draft::draft(random, Wish { records, calls, compact: true }).bytes()
}

/// At times something is wrong in a log, with many records before it.
fn perhaps_damaged(random: &mut Random, mut log: Vec<u8>) -> Vec<u8> {
    if random.chance(40) {
        damage(random, &mut log);
    }
    log
}

/// In large pieces, and the last bytes one by one.
fn full(player: &mut Player) {
    let log = full_log(player.random, 2_000);
    let size = *player.random.pick(&[1_000, 4_096, 20_000, 70_000]);
    let mut cuts = cuts_of(&log, size);
    let near = log.len() - player.random.below(150);
    cuts.retain(|&cut| cut < near);
    cuts.extend(near..log.len());
    play_log(player, &log, &cuts);
}

fn full_in_64(player: &mut Player) {
    let log = full_log(player.random, 600);
    play_log(player, &log, &cuts_of(&log, 64));
}

fn full_of_repeats(player: &mut Player) {
    let calls = player.random.between(1, 200);
    let log = full_log(player.random, calls);
    let log = perhaps_damaged(player.random, log);
    play_log(player, &log, &cuts_of(&log, 4_096));
}

fn some_hundred(player: &mut Player) {
    let wish = Wish { records: player.random.between(50, 400), calls: player.random.between(20, 400), compact: false };
    let log = draft::draft(player.random, wish).bytes();
    let log = perhaps_damaged(player.random, log);
    let cuts = few_cuts(player.random, &log);
    play_log(player, &log, &cuts);
}

fn full_byte_by_byte(player: &mut Player) {
    let log = full_log(player.random, 900);
    play_log(player, &log, &cuts_of(&log, 1));
}

/// As many records as the struct can speak of, which is more than a log has.
fn many_records(player: &mut Player) {
    let records = *player.random.pick(&[1_000, 4_000, 32_768, 65_535]);
    player.lend(Lent::of(records));
    let (log, records_begin) = log_with_records(player.random);
    for _ in 0..3 {
        let done = (records - player.random.below(4)) as u16;
        let link = Link { count: 4_000, lines: 50, stage: RECORDS_DUE, records: records as u16, done, ..Link::OPENED };
        player.alter(link, Vec::new());
        player.feed(&log[records_begin..], player.room());
        player.close(player.room());
        player.alter(link, Vec::new());
        let short = short_by_one(player.random, player.room());
        player.feed(b"", short);
        player.alter(link, Vec::new());
        player.close(player.room());
    }
}
