//! The packet link: "After the closing call, classes, totals and refusal are
//! those for the joined bytes, wherever they were cut", with two exceptions.
//!
//! What should come is worked out here from the reader and the judge of whole
//! logs alone; the link's own steps are asked for nothing but their answers.

use reference::draft::{self, Wish};
use reference::generate::{damage, Generator};
use reference::judging::{judge_entries, Entry, Rate, Rates};
use reference::link::{worked_of, Lent, Link, LINK_BYTES, WORKED_BYTES};
use reference::links::{found, tags, Links, Script, Step, Told};
use reference::random::Random;
use reference::reading::{count_line, read_of_any_length, LONGEST_LOG};
use reference::session::read_line;
use reference::{judge, Refusal, Totals};
use std::collections::BTreeSet;
use std::sync::OnceLock;

const SEED: u64 = 20240302;
/// As many as every kind of script comes up in.
const SCRIPTS: u64 = 1_000;

const NONE: Refusal = Refusal { number: 0, line: 0, field: 0 };

fn whole(number: u32) -> Refusal {
    Refusal::whole(number)
}

fn at(number: u32, line: u32, field: u32) -> Refusal {
    Refusal { number, line, field }
}

/// A link and the slices that a caller lends to it.
struct Caller {
    link: Link,
    verdicts: Vec<u8>,
    worked: Vec<u8>,
}

const FILL: u8 = 0xEE;

impl Caller {
    fn new(lent: Lent) -> Caller {
        Caller { link: Link::OPENED, verdicts: vec![FILL; lent.verdicts], worked: vec![FILL; lent.worked] }
    }

    fn lent(&self) -> Lent {
        Lent { verdicts: self.verdicts.len(), worked: self.worked.len() }
    }

    fn feed(&mut self, piece: &[u8]) -> Refusal {
        self.link.feed(piece, &mut self.verdicts, &mut self.worked).answer
    }

    fn close(&mut self) -> (Refusal, Totals) {
        self.link.close(self.lent())
    }
}

/// The lines of a text that are ended by CR LF, and where each of them ends.
fn ended_lines(bytes: &[u8]) -> Vec<(&[u8], usize)> {
    let mut lines = Vec::new();
    let mut from = 0;
    for end in (1..bytes.len()).filter(|&end| bytes[end - 1..=end] == *b"\r\n") {
        lines.push((&bytes[from..end - 1], end + 1));
        from = end + 1;
    }
    lines
}

/// How many records a text speaks of, and where its count line ends, if its lines
/// are right up to there.
fn announced(bytes: &[u8]) -> Option<(usize, usize)> {
    let lines = ended_lines(bytes);
    let (count, end) = lines.iter().skip(38).find_map(|&(line, end)| Some((count_line(line)?, end)))?;
    let records = count.ok()?;
    // Nothing but the records is missing there.
    let due = match read_of_any_length(&bytes[..end]) {
        Ok(_) => true,
        Err(refusal) => refusal.number == 6,
    };
    due.then_some((records, end))
}

/// What may follow on some bytes: enough to tell a refusal that rests on their
/// end from one that does not.
const BEHIND: [&[u8]; 8] = [b"", b"\n", b"\r\n", b"A", b"\r\nA", b"\x00", b";\r\n", b"]\r\n"];

/// The refusal that comes whatever follows on these bytes.
fn settled(bytes: &[u8]) -> Option<Refusal> {
    let answers = BEHIND.map(|more| read_of_any_length(&[bytes, more].concat()).err());
    let same = answers.iter().all(|answer| *answer == answers[0]);
    answers[0].filter(|_| same)
}

/// What is refused while these bytes come.
fn refused_so_far(bytes: &[u8], lent: Lent) -> Refusal {
    let front = &bytes[..bytes.len().min(LONGEST_LOG)];
    // Of all that can be told the earliest byte decides: a refusal in front of the
    // count line's end is settled without what is behind it.
    if let Some((records, _)) = announced(front) {
        if !lent.holds(records) {
            return whole(7);
        }
    }
    match settled(front) {
        Some(refusal) => refusal,
        None if bytes.len() > LONGEST_LOG => whole(1),
        None => NONE,
    }
}

/// What the closing answers behind these bytes.
fn expected(bytes: &[u8], lent: Lent) -> (Refusal, Totals) {
    let refused = refused_so_far(bytes, lent);
    if refused != NONE {
        return (refused, Totals::default());
    }
    match judge(bytes, lent.verdicts) {
        Ok((totals, _)) => (NONE, totals),
        Err(refusal) => (refusal, Totals::default()),
    }
}

/// What both slices have in them behind these bytes: the records whose lines are
/// right and ended in front of the first refusal, and else what was in them.
fn expected_slices(bytes: &[u8], lent: Lent) -> (Vec<u8>, Vec<u8>) {
    let (mut verdicts, mut worked) = (vec![FILL; lent.verdicts], vec![FILL; lent.worked]);
    let front = &bytes[..bytes.len().min(LONGEST_LOG)];
    let Some((records, end)) = announced(front).filter(|&(records, _)| lent.holds(records)) else {
        return (verdicts, worked);
    };
    let mut lines = Vec::new();
    for (line, _) in ended_lines(&front[end..]).into_iter().take(records) {
        if line.len() > 75 || line.iter().any(|byte| !(32..=127).contains(byte)) || read_line(line).is_err() {
            break;
        }
        lines.push(line);
    }
    let entries: Vec<Entry> = lines.iter().map(|line| Entry::of(line, &read_line(line).unwrap())).collect();
    let rate = Rate { bonus: 0, multiplier: 1 };
    let (_, judged) = judge_entries(&entries, &Rates { squares: rate, exchanges: rate, countries: rate });
    for (place, (entry, &verdict)) in entries.iter().zip(&judged).enumerate() {
        verdicts[place] = verdict;
        worked[place * WORKED_BYTES..][..WORKED_BYTES].copy_from_slice(&worked_of(entry, verdict));
    }
    (verdicts, worked)
}

/// Feeds bytes in pieces, closes, and holds all to what is expected.
fn hold(bytes: &[u8], cuts: &[usize], lent: Lent, each: bool, what: &str) -> Refusal {
    let mut caller = Caller::new(lent);
    let mut from = 0;
    for &to in cuts.iter().chain([&bytes.len()]) {
        let answer = caller.feed(&bytes[from..to]);
        if each {
            assert_eq!(answer, refused_so_far(&bytes[..to], lent), "{what}, {to} bytes");
        }
        from = to;
    }
    let answer = caller.close();
    assert_eq!(answer, expected(bytes, lent), "{what}");
    let (verdicts, worked) = expected_slices(bytes, lent);
    assert_eq!(caller.verdicts, verdicts, "{what}");
    assert!(caller.worked == worked, "{what}");
    answer.0
}

fn some_cuts(random: &mut Random, length: usize, most: usize) -> Vec<usize> {
    let mut cuts: Vec<usize> = (0..random.below(most)).map(|_| random.below(length + 1)).collect();
    cuts.sort_unstable();
    cuts
}

/// Slices that suffice for a log, too long, or too short by a little.
fn some_lent(random: &mut Random, bytes: &[u8]) -> Lent {
    let records = announced(bytes).map_or(4, |(records, _)| records);
    let Lent { verdicts, worked } = Lent::of(records);
    match random.below(8) {
        0 => Lent { verdicts: verdicts.saturating_sub(1), worked },
        1 => Lent { verdicts, worked: worked.saturating_sub(1) },
        2 => Lent { verdicts: verdicts + 3, worked: worked + 25 },
        _ => Lent { verdicts, worked },
    }
}

#[test]
fn logs_of_all_kinds_are_judged_as_joined_wherever_they_are_cut() {
    let generator = Generator::new(SEED);
    let mut seen = BTreeSet::new();
    for index in 0..4_000 {
        let mut random = Random::new(SEED, index);
        let log = generator.trial(index).log;
        let lent = some_lent(&mut random, &log);
        let cuts = some_cuts(&mut random, log.len(), 30);
        let small = log.len() < 4_000;
        seen.insert(hold(&log, &cuts, lent, small, &format!("log {index}")).number);
    }
    assert_eq!(seen.into_iter().collect::<Vec<_>>(), [0, 1, 2, 3, 4, 5, 6, 7]);
}

/// A refusal is told as soon as it is certain and not before: after every byte.
#[test]
fn a_refusal_is_told_when_it_is_settled() {
    for index in 0..60 {
        let mut random = Random::new(SEED ^ 1, index);
        let mut made = draft::draft(&mut random, Wish { records: 3, calls: 2, compact: true });
        made.remarks.truncate(2);
        let mut log = made.bytes();
        if index % 3 != 0 {
            damage(&mut random, &mut log);
        }
        let lent = some_lent(&mut random, &log);
        let cuts: Vec<usize> = (1..log.len()).collect();
        hold(&log, &cuts, lent, true, &format!("log {index}"));
    }
}

/// One log cut in two at every place, and in three where the second cut is near.
#[test]
fn every_cut_of_a_log() {
    let mut random = Random::new(SEED, 7);
    let log = draft::draft(&mut random, Wish { records: 4, calls: 2, compact: true }).bytes();
    let (records, _) = announced(&log).unwrap();
    for cut in 0..=log.len() {
        hold(&log, &[cut], Lent::of(records), false, &format!("cut at {cut}"));
        let near = (cut + 1).min(log.len());
        hold(&log, &[cut, cut, near], Lent::of(records), false, &format!("cut at {cut} and {near}"));
        // What is left out behind the cut is an end that the closing tells.
        hold(&log[..cut], &[], Lent::of(records), false, &format!("ended at {cut}"));
    }
}

fn log_of_length(random: &mut Random, length: usize) -> Vec<u8> {
    let mut made = draft::draft(random, Wish { records: 5, calls: 4, compact: true });
    let now = made.bytes().len();
    made.pad(random, length - now);
    made.bytes()
}

/// "number 1 comes at the 65,536th byte, unless the bytes before it already settle
/// a refusal"
#[test]
fn the_limit() {
    for index in 0..120 {
        let mut random = Random::new(SEED ^ 2, index);
        let length = LONGEST_LOG - 2 + random.below(6);
        let mut log = log_of_length(&mut random, length);
        log.extend(random.pick(&[&b""[..], b"", b"A", b"\r\n"]).iter());
        if random.chance(60) {
            let near = log.len() - random.between(1, 5);
            log[near] = *random.pick(b"\x00\r\n;A");
        }
        let cuts = some_cuts(&mut random, log.len(), 5);
        let lent = some_lent(&mut random, &log);
        hold(&log, &cuts, lent, true, &format!("log {index}"));
    }
}

#[test]
fn the_limit_byte_by_byte() {
    let mut random = Random::new(SEED, 11);
    let log = log_of_length(&mut random, LONGEST_LOG);
    let mut caller = Caller::new(Lent::of(5));
    assert_eq!(caller.feed(&log[..LONGEST_LOG - 1]), NONE);
    assert_eq!(caller.feed(b"\n"), NONE, "the 65,535th byte");
    let reached = caller.link;
    assert_eq!(caller.feed(b""), NONE);
    assert_eq!(caller.link, reached);
    assert_eq!(caller.feed(b"A"), whole(1), "not 6: the 65,536th is told 1 whatever it is");
    assert_eq!(caller.close().0, whole(1));
    // The 65,535th settles a refusal, and what comes behind it in the same call does not move it.
    let mut bad = log.clone();
    bad[LONGEST_LOG - 1] = 0;
    bad.extend(b"AA");
    let lines = ended_lines(&log).len() as u32;
    let mut caller = Caller::new(Lent::of(5));
    assert_eq!(caller.feed(&bad), at(2, lines, 0));
}

const SPRING: &str = "240302;1401;DK1AA;1;59;001;59;004;;JO40AA;120;;N;N;\r\n";

/// A log up to its count line, which says so many records.
fn front(records: usize) -> Vec<u8> {
    let mut random = Random::new(SEED, 3);
    let mut made = draft::draft(&mut random, Wish { records: 0, calls: 1, compact: true });
    made.remarks.clear();
    let mut lines = made.lines();
    lines[38] = format!("[QSORecords;{records}]").into_bytes();
    draft::join(&lines)
}

#[test]
fn the_state_says_what_came_and_no_more() {
    let mut caller = Caller::new(Lent::of(2));
    caller.feed(&front(2));
    let Link { count, lines, stage, records, done, held, returned, .. } = caller.link;
    assert_eq!((count as usize, lines, stage, records, done, held, returned), (front(2).len(), 39, 39, 2, 0, 0, 0));
    caller.feed(&SPRING.as_bytes()[..10]);
    assert_eq!(caller.link.held, 10);
    assert_eq!(&caller.link.line[..11], b"240302;140\0");
    caller.feed(&SPRING.as_bytes()[10..SPRING.len() - 1]);
    assert_eq!((caller.link.held as usize, caller.link.returned), (SPRING.len() - 2, 1));
    assert_eq!(caller.verdicts, [FILL, FILL], "nothing is written before the LF");
    caller.feed(b"\n");
    assert_eq!(caller.verdicts, [96, FILL]);
    assert_eq!(&caller.worked[..24], b"DK1AA\0\0\0\0\0\0\0\0\0JO40\0\0\0\0\0\0");
    assert_eq!(caller.link.line, [0; 75]);
    assert_eq!((caller.link.done, caller.link.points, caller.link.classes), (1, 120, [1, 0, 0, 0]));
    // The same state, whatever the pieces were.
    let mut other = Caller::new(Lent::of(2));
    other.feed(&[&front(2)[..], SPRING.as_bytes()].concat());
    assert_eq!(other.link, caller.link);
}

#[test]
fn a_refusal_is_kept_and_nothing_changes_behind_it() {
    let mut caller = Caller::new(Lent::of(1));
    assert_eq!(caller.feed(b"[REG1TEST;1]\n"), at(2, 1, 0), "a bare LF");
    let kept = caller.link;
    assert_eq!(kept, Link { refusal: at(2, 1, 0), ..Link::OPENED });
    for piece in [&b""[..], b"\r\n", &front(1)] {
        assert_eq!(caller.feed(piece), at(2, 1, 0));
    }
    assert_eq!(caller.close(), (at(2, 1, 0), Totals::default()));
    assert_eq!(caller.link, kept);
    caller.link = Link::OPENED;
    caller.feed(&front(0));
    assert_eq!(caller.close().0, NONE);
    assert_eq!(caller.link, Link { refusal: whole(13), ..Link::OPENED });
    assert_eq!(caller.close(), (whole(13), Totals::default()));
    assert_eq!(caller.feed(b""), whole(13));
}

/// "7, for both slices, at the count line and, before any byte is taken, when a
/// later call, the closing too, lends too little for N"
#[test]
fn short_slices() {
    for short in [Lent { verdicts: 1, worked: 48 }, Lent { verdicts: 2, worked: 47 }] {
        let log = front(2);
        let mut caller = Caller::new(Lent::of(0));
        assert_eq!(caller.feed(&log[..log.len() - 1]), NONE, "any slices before the LF of the count line");
        let (before, enough) = (caller.link, Lent::of(2));
        let feed = |link: &mut Link, piece: &[u8], lent: Lent| link.feed(piece, &mut vec![FILL; lent.verdicts], &mut vec![FILL; lent.worked]).answer;
        let mut link = before;
        assert_eq!(feed(&mut link, b"\n", short), whole(7));
        assert_eq!(feed(&mut link, b"", enough), whole(7), "kept");
        let mut link = before;
        assert_eq!(feed(&mut link, b"\n", enough), NONE);
        let read = link;
        assert_eq!(feed(&mut link, b"", short), whole(7), "without a byte too");
        link = read;
        assert_eq!(feed(&mut link, b"\x00", short), whole(7), "before the byte");
        link = read;
        assert_eq!(link.close(short).0, whole(7));
        link = read;
        assert_eq!(link.close(enough).0, at(6, 40, 0));
    }
}

#[test]
fn a_struct_lies_in_memory_as_the_header_has_it() {
    let bytes = found().as_bytes();
    assert_eq!(Link::from_bytes(bytes), found());
    assert_eq!((LINK_BYTES, Link::OPENED.as_bytes()), (156, [0; 156]));
    let place = |link: Link| link.as_bytes().iter().position(|&byte| byte != 0).unwrap();
    assert_eq!(place(Link { count: 1, ..Link::OPENED }), 12);
    assert_eq!(place(Link { points: 1, ..Link::OPENED }), 20);
    assert_eq!(place(Link { classes: [0, 0, 0, 1], ..Link::OPENED }), 30);
    assert_eq!(place(Link { modes: [0, 0, 0, 0, 0, 0, 0, 0, 0, 0, 1], ..Link::OPENED }), 58);
    assert_eq!(place(Link { rates: [0, 0, 0, 0, 0, 1], ..Link::OPENED }), 70);
    assert_eq!(place(Link { stage: 1, ..Link::OPENED }), 76);
    assert_eq!(place(Link { returned: 1, ..Link::OPENED }), 80);
    let mut line = [0; 75];
    line[74] = 1;
    assert_eq!(place(Link { line, ..Link::OPENED }), 155);
}

/// They take a while, so that all tests share them.
fn scripts_made() -> impl Iterator<Item = &'static Script> {
    static MADE: OnceLock<Vec<Script>> = OnceLock::new();
    let links = Links::new(SEED);
    MADE.get_or_init(|| (0..SCRIPTS).map(|index| links.script(index)).collect()).iter()
}

fn calls_made() -> impl Iterator<Item = (&'static Step, &'static Told)> {
    scripts_made().flat_map(|script| &script.steps).filter_map(|(step, told)| Some((step, told.as_ref()?)))
}

#[test]
fn every_kind_of_script_comes_up() {
    let made: BTreeSet<&str> = scripts_made().map(|script| script.tag).collect();
    let missing: Vec<&str> = tags().into_iter().filter(|tag| !made.contains(tag)).collect();
    assert!(missing.is_empty(), "{missing:?}");
    assert!(scripts_made().all(|script| script.calls() > 0));
}

#[test]
fn every_answer_comes_up() {
    let numbers = |closing: bool| -> BTreeSet<u32> {
        let calls = calls_made().filter(|(step, _)| closing == matches!(step, Step::Close { .. }));
        calls.map(|(_, told)| told.answer.number).filter(|&number| number <= 13).collect()
    };
    for number in [0, 1, 2, 3, 4, 5, 6, 7, 13] {
        assert!(numbers(false).contains(&number), "{number} while bytes come");
    }
    for number in [0, 2, 6, 7, 13] {
        assert!(numbers(true).contains(&number), "{number} at the closing");
    }
}

/// Pieces that begin inside a line end, that have no bytes, and that have many
/// records; and each verdict that there can be.
#[test]
fn every_sort_of_piece_and_verdict_comes_up() {
    let pieces: Vec<&[u8]> = calls_made().filter_map(|(step, _)| if let Step::Feed { piece, .. } = step { Some(&piece[..]) } else { None }).collect();
    assert!(pieces.iter().any(|piece| piece.is_empty()));
    assert!(pieces.iter().any(|piece| piece.len() > LONGEST_LOG));
    assert!(pieces.iter().filter(|piece| piece.len() == 1).count() > 1_000);
    assert!(pieces.iter().filter(|piece| piece.len() > 2 && piece[0] == b'\n').count() > 50);
    assert!(calls_made().any(|(_, told)| told.verdicts.len() > 900));
    let verdicts: BTreeSet<u8> = calls_made().flat_map(|(_, told)| told.verdicts.iter().copied()).collect();
    assert_eq!(verdicts.into_iter().collect::<Vec<_>>(), [0, 1, 2, 3, 16, 32, 48, 64, 80, 96, 112]);
}
