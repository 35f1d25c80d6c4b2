//! Logs as a mail program leaves them: with other line ends, with spaces, with
//! a wrong count, and with more than a mender can put right.

use crate::draft::{self, Draft, Wish, FIRST_REMARK, REMARKS_LINE};
use crate::faults;
use crate::generate::damage;
use crate::random::Random;
use crate::reading::{Refusal, COUNT_START, LONGEST_LINE, LONGEST_LOG, REMARKS_MARK};

/// What a maker knows of a log after it is mended.
#[derive(Clone, Debug, PartialEq, Eq)]
pub enum Outcome {
    /// It is this one, and accepted.
    Restored(Vec<u8>),
    Refused(Refusal),
    /// The maker does not know; the mender has to say.
    Open,
}

type Maker = fn(&mut Random) -> (Vec<u8>, Outcome);

/// The kinds of chewed logs and the share each has. Most can be mended; large
/// logs come seldom.
pub const CHEWED: &[(&str, usize, Maker)] = &[
    ("chewed/all-line-feeds", 3, |random| mendable(random, &[all_line_feeds])),
    ("chewed/some-line-feeds", 3, |random| mendable(random, &[some_line_feeds])),
    ("chewed/one-line-feed", 1, |random| mendable(random, &[one_line_feed])),
    ("chewed/open-end", 3, |random| mendable(random, &[open_end])),
    ("chewed/one-space", 1, |random| mendable(random, &[one_space])),
    ("chewed/some-spaces", 3, |random| mendable(random, &[some_spaces])),
    ("chewed/many-spaces", 1, |random| mendable(random, &[many_spaces])),
    ("chewed/wrong-count", 4, |random| mendable(random, &[wrong_count])),
    ("chewed/long-count", 1, |random| mendable(random, &[long_count])),
    ("chewed/mixture", 10, |random| mendable(random, &[mixture])),
    ("chewed/everything", 2, |random| mendable(random, &[all_line_feeds, open_end, all_spaces, wrong_count])),
    ("chewed/no-records", 2, no_records),
    ("chewed/remarks", 2, many_remarks),
    ("chewed/spaces-on-remarks", 1, spaces_on_remarks),
    ("chewed/full", 1, full),
    ("chewed/full-of-line-feeds", 1, full_of_line_feeds),
    ("chewed/to-the-limit", 1, to_the_limit),
    ("chewed/shrinks-from-the-limit", 1, shrinks_from_the_limit),
    ("chewed/longest-list", 1, longest_list),
    ("chewed/over-the-limit", 1, over_the_limit),
    ("chewed/over-the-limit-and-broken", 1, over_the_limit_and_broken),
    ("chewed/about-the-limit-no-digits", 1, about_the_limit_no_digits),
    ("chewed/about-the-limit-no-mark", 1, about_the_limit_no_mark),
    ("chewed/too-long-but-for-spaces", 1, too_long_but_for_spaces),
    ("chewed/1000-lines", 1, a_thousand_lines),
    ("chewed/1000-lines-and-broken", 1, a_thousand_lines_and_broken),
    ("chewed/return-behind", 1, return_behind),
    ("chewed/blank-lines-behind", 2, blank_lines_behind),
    ("chewed/no-digits", 2, no_digits),
    ("chewed/spaces-on-count", 1, spaces_on_count),
    ("chewed/spaces-on-head", 2, spaces_on_head),
    ("chewed/other-white", 1, other_white),
    ("chewed/lone-return", 2, lone_return),
    ("chewed/line-feed-inside", 3, line_feed_inside),
    ("chewed/no-mark", 1, no_mark),
    ("chewed/mark-elsewhere", 1, mark_elsewhere),
    ("chewed/count-line-elsewhere", 2, count_line_elsewhere),
    ("chewed/faulty", 6, faulty),
    ("chewed/damaged", 3, damaged),
    ("chewed/pieces-behind-head", 4, pieces_behind_head),
    ("chewed/pieces", 1, pieces_alone),
];

/// Count lines that tell no number, or something besides.
const NO_DIGITS: [&str; 16] = [
    "[QSORecords;]", "[QSORecords;", "[QSORecords;5", "[QSORecords;5] ", "[QSORecords;5]x", "[QSORecords;5]]", "[QSORecords; 5]",
    "[QSORecords;5 ]", "[QSORecords;+5]", "[QSORecords;-5]", "[QSORecords;5;]", "[QSORecords;x]", "[QSORecords;/]", "[QSORecords;:]",
    "[QSORecords;5}", "[QSORecords;5]5]",
];

/// What a log is pieced together from where the mender looks at it.
const PIECES: [&str; 21] = [
    "\n", "\n", "\r", "\r\n", "\r\n", " ", "   ", "[Remarks]", "[Remarks]\n", "[QSORecords;", "[QSORecords;0]", "[QSORecords;2]\n",
    "[QSORecords;02]\r\n", "]", "7", "00", "x", "240302;1401;DK1AA;;;;;;;;1;;;;", "240302;1401;DK1AA;;;;;;;;1;;;;\n",
    ";1410;ERROR;;;;;;;;0;;;; \r\n", "\t",
];

/// A log cut into lines at each LF: their texts and their ends. Of the last
/// line the end may be empty.
struct Torn {
    texts: Vec<Vec<u8>>,
    ends: Vec<&'static [u8]>,
}

type Chew = fn(&mut Random, &mut Torn);

impl Torn {
    fn of(log: &[u8]) -> Torn {
        let mut torn = Torn { texts: Vec::new(), ends: Vec::new() };
        for line in log.split_inclusive(|&b| b == b'\n') {
            let known: [&'static [u8]; 2] = [b"\r\n", b"\n"];
            let end = known.into_iter().find(|end| line.ends_with(end)).unwrap_or(b"");
            torn.texts.push(line[..line.len() - end.len()].to_vec());
            torn.ends.push(end);
        }
        torn
    }

    fn bytes(&self) -> Vec<u8> {
        let lines = self.texts.iter().zip(&self.ends);
        lines.flat_map(|(text, end)| [text, *end].concat()).collect()
    }

    /// The place of the count line, and with it of the records behind it.
    fn count_line(&self) -> Option<usize> {
        let mark = self.texts.iter().position(|text| text == REMARKS_MARK)?;
        (mark + 1..self.texts.len()).find(|&place| self.texts[place].starts_with(COUNT_START))
    }

    fn records(&self) -> std::ops::Range<usize> {
        match self.count_line() {
            Some(count) => count + 1..self.texts.len(),
            None => 0..0,
        }
    }

    fn some_record(&self, random: &mut Random) -> Option<usize> {
        let records = self.records();
        (!records.is_empty()).then(|| random.between(records.start, records.end - 1))
    }

    fn add_spaces(&mut self, place: usize, spaces: usize) {
        let length = self.texts[place].len() + spaces;
        self.texts[place].resize(length, b' ');
    }
}

// What a mender puts right.

fn all_line_feeds(_: &mut Random, torn: &mut Torn) {
    torn.ends.fill(b"\n");
}

fn some_line_feeds(random: &mut Random, torn: &mut Torn) {
    let percent = *random.pick(&[3, 20, 50, 90]);
    for end in &mut torn.ends {
        if random.chance(percent) {
            *end = b"\n";
        }
    }
}

fn one_line_feed(random: &mut Random, torn: &mut Torn) {
    let place = random.below(torn.ends.len());
    torn.ends[place] = b"\n";
}

fn open_end(random: &mut Random, torn: &mut Torn) {
    if let Some(end) = torn.ends.last_mut() {
        *end = if random.chance(50) { b"\r" } else { b"" };
    }
}

fn one_space(random: &mut Random, torn: &mut Torn) {
    if let Some(place) = torn.some_record(random) {
        torn.add_spaces(place, 1);
    }
}

fn some_spaces(random: &mut Random, torn: &mut Torn) {
    let percent = *random.pick(&[10, 30, 80]);
    for place in torn.records() {
        if random.chance(percent) {
            torn.add_spaces(place, random.between(1, 6));
        }
    }
}

fn all_spaces(random: &mut Random, torn: &mut Torn) {
    let spaces = random.between(1, 3);
    torn.records().for_each(|place| torn.add_spaces(place, spaces));
}

/// So many that the line is far too long with them.
fn many_spaces(random: &mut Random, torn: &mut Torn) {
    if let Some(place) = torn.some_record(random) {
        torn.add_spaces(place, random.between(40, 3_000));
    }
}

fn set_count(torn: &mut Torn, count: &str) {
    if let Some(place) = torn.count_line() {
        torn.texts[place] = [COUNT_START, count.as_bytes(), b"]"].concat();
    }
}

fn wrong_count(random: &mut Random, torn: &mut Torn) {
    let right = torn.records().len();
    let count = match random.below(10) {
        0 => right + 1,
        1 => right.saturating_sub(1),
        2 => 0,
        3 => 999,
        4 => *random.pick(&[256 + right, 1_000, 1_000 + right, 65_536 + right, (1 << 32) + right]),
        5 => random.below(20),
        // The right number, but with zeros in front.
        6 => return set_count(torn, &format!("{right:04}")),
        7 => return set_count(torn, &format!("0{right}")),
        8 => return set_count(torn, &"0".repeat(random.between(1, 9))),
        _ => return set_count(torn, &format!("{}{right}", u64::MAX)),
    };
    set_count(torn, &count.to_string());
}

fn long_count(random: &mut Random, torn: &mut Torn) {
    let most = if random.chance(20) { 60_000 } else { 300 };
    let length = random.between(60, most);
    let digits = random.string(length, b"0123456789");
    set_count(torn, std::str::from_utf8(&digits).expect("digits are ASCII"));
}

/// Any of these together, and at times none of them.
fn mixture(random: &mut Random, torn: &mut Torn) {
    let chews: [(usize, Chew); 7] = [
        (25, all_line_feeds), (40, some_line_feeds), (40, open_end), (45, some_spaces), (10, one_space), (5, many_spaces), (55, wrong_count),
    ];
    for (percent, chew) in chews {
        if random.chance(percent) {
            chew(random, torn);
        }
    }
}

// Logs that are accepted once they are mended.

/// Chews a log that is accepted, by what can be put right, and says that it
/// will be: unless it is, before or after, longer than a log may be.
fn chew(random: &mut Random, whole: Vec<u8>, chews: &[Chew]) -> (Vec<u8>, Outcome) {
    let mut torn = Torn::of(&whole);
    chews.iter().for_each(|chew| chew(random, &mut torn));
    let log = torn.bytes();
    let long = log.len() > LONGEST_LOG || whole.len() > LONGEST_LOG;
    let outcome = if long { Outcome::Refused(Refusal::whole(1)) } else { Outcome::Restored(whole) };
    (log, outcome)
}

fn mendable(random: &mut Random, chews: &[Chew]) -> (Vec<u8>, Outcome) {
    let made = if random.chance(10) {
        let wish = Wish { records: random.between(20, 200), calls: random.between(5, 100), compact: false };
        draft::draft(random, wish)
    } else {
        draft::small_with_all_parts(random)
    };
    chew(random, made.bytes(), chews)
}

/// The count line is the last one, so that its end and its count may both be
/// wrong.
fn no_records(random: &mut Random) -> (Vec<u8>, Outcome) {
    let made = draft::draft(random, Wish { records: 0, calls: 1, compact: false });
    let chews: &[Chew] = if random.chance(60) { &[wrong_count, open_end] } else { &[mixture] };
    chew(random, made.bytes(), chews)
}

fn many_remarks(random: &mut Random) -> (Vec<u8>, Outcome) {
    let mut made = draft::small(random);
    for _ in 0..random.between(5, 60) {
        let remark = match random.below(4) {
            0 => Vec::new(),
            1 => REMARKS_MARK.to_vec(),
            _ => draft::remark(random),
        };
        made.remarks.push(remark);
    }
    chew(random, made.bytes(), &[mixture])
}

/// These stay, so that they belong to the log that comes out.
fn spaces_on_remarks(random: &mut Random) -> (Vec<u8>, Outcome) {
    let mut made = draft::small_with_all_parts(random);
    for remark in &mut made.remarks {
        let length = random.between(remark.len(), LONGEST_LINE);
        remark.resize(length, b' ');
    }
    chew(random, made.bytes(), &[mixture])
}

fn full_draft(random: &mut Random) -> Draft {
    let calls = random.between(1, 2_000);
    draft::draft(random, Wish { records: 999, calls, compact: true })
}

fn full(random: &mut Random) -> (Vec<u8>, Outcome) {
    let made = full_draft(random);
    chew(random, made.bytes(), &[mixture])
}

fn full_of_line_feeds(random: &mut Random) -> (Vec<u8>, Outcome) {
    let made = full_draft(random);
    chew(random, made.bytes(), &[all_line_feeds, all_spaces, wrong_count])
}

fn padded_to(random: &mut Random, length: usize) -> Vec<u8> {
    let mut made = draft::small_with_all_parts(random);
    let more = length - made.bytes().len();
    made.pad(random, more);
    made.bytes()
}

fn to_the_limit(random: &mut Random) -> (Vec<u8>, Outcome) {
    let whole = padded_to(random, LONGEST_LOG);
    let chews: &[Chew] = if random.chance(50) { &[all_line_feeds, wrong_count] } else { &[one_line_feed] };
    chew(random, whole, chews)
}

/// Spaces fill the log up to this length, before or behind what it will keep.
fn filled_with_spaces(random: &mut Random, length: usize) -> (Vec<u8>, Outcome) {
    let whole = draft::small_with_all_parts(random).bytes();
    let mut torn = Torn::of(&whole);
    let place = torn.some_record(random).expect("there is a record");
    torn.add_spaces(place, length - whole.len());
    let long = length > LONGEST_LOG;
    let outcome = if long { Outcome::Refused(Refusal::whole(1)) } else { Outcome::Restored(whole) };
    (torn.bytes(), outcome)
}

fn shrinks_from_the_limit(random: &mut Random) -> (Vec<u8>, Outcome) {
    filled_with_spaces(random, LONGEST_LOG)
}

/// Nearly as many things to tell of as there can be: an empty remark is a line
/// of one byte, and of two once it is mended.
fn longest_list(random: &mut Random) -> (Vec<u8>, Outcome) {
    let mut made = draft::small(random);
    let room = LONGEST_LOG - made.bytes().len();
    made.remarks.extend(vec![Vec::new(); room / 2]);
    chew(random, made.bytes(), &[all_line_feeds, all_spaces, wrong_count])
}

// Logs that are refused even so.

fn refused(number: u32, place: usize) -> Outcome {
    Outcome::Refused(Refusal { number, line: place as u32 + 1, field: 0 })
}

/// Short enough as it comes, and one byte too long once it is mended.
fn over_the_limit(random: &mut Random) -> (Vec<u8>, Outcome) {
    let whole = padded_to(random, LONGEST_LOG + 1);
    let chews: &[Chew] = match random.below(3) {
        0 => &[one_line_feed],
        1 => &[all_line_feeds],
        _ => &[open_end],
    };
    chew(random, whole, chews)
}

fn over_the_limit_and_broken(random: &mut Random) -> (Vec<u8>, Outcome) {
    let (mut log, outcome) = over_the_limit(random);
    let at = random.below(log.len());
    // The same length, and the same lines.
    if !b"\r\n".contains(&log[at]) {
        log[at] = *random.pick(b"\x00!~\xff");
    }
    (log, outcome)
}

/// Adds remarks, so that the log has this many bytes once each line ends in CR
/// LF.
fn fill(random: &mut Random, torn: &mut Torn, length: usize) {
    let now: usize = torn.texts.iter().map(|text| text.len() + 2).sum();
    let mut filling = Draft { keywords: Vec::new(), header: Vec::new(), remarks: Vec::new(), records: Vec::new() };
    filling.pad(random, length - now);
    let ends = vec![&b"\r\n"[..]; filling.remarks.len()];
    torn.texts.splice(FIRST_REMARK..FIRST_REMARK, filling.remarks);
    torn.ends.splice(FIRST_REMARK..FIRST_REMARK, ends);
}

fn about_the_limit(random: &mut Random) -> (usize, bool) {
    let over = random.chance(50);
    (LONGEST_LOG + usize::from(over), over)
}

/// Without a count that can be set spaces are dropped all the same, and that
/// can bring the log within the limit.
fn about_the_limit_no_digits(random: &mut Random) -> (Vec<u8>, Outcome) {
    let made = draft::small_with_all_parts(random);
    let mut torn = Torn::of(&made.bytes());
    torn.texts[made.count_line()] = random.pick(&NO_DIGITS).as_bytes().to_vec();
    let (length, over) = about_the_limit(random);
    fill(random, &mut torn, length);
    let count = torn.count_line().expect("there is a count line");
    all_spaces(random, &mut torn);
    all_line_feeds(random, &mut torn);
    (torn.bytes(), if over { Outcome::Refused(Refusal::whole(1)) } else { refused(4, count) })
}

/// Without the mark spaces and count stay, and that can take the log over the
/// limit.
fn about_the_limit_no_mark(random: &mut Random) -> (Vec<u8>, Outcome) {
    let mut made = draft::small_with_all_parts(random);
    made.remarks.retain(|remark| remark != REMARKS_MARK);
    let mut torn = Torn::of(&made.bytes());
    all_spaces(random, &mut torn);
    wrong_count(random, &mut torn);
    torn.texts[REMARKS_LINE] = b"[remarks]".to_vec();
    let (length, over) = about_the_limit(random);
    fill(random, &mut torn, length);
    all_line_feeds(random, &mut torn);
    (torn.bytes(), if over { Outcome::Refused(Refusal::whole(1)) } else { refused(3, REMARKS_LINE) })
}

fn too_long_but_for_spaces(random: &mut Random) -> (Vec<u8>, Outcome) {
    let length = LONGEST_LOG + *random.pick(&[1, 1, 2, 100, 5_000]);
    filled_with_spaces(random, length)
}

fn torn_of_a_thousand(random: &mut Random) -> Torn {
    let mut torn = Torn::of(&full_draft(random).bytes());
    let more = torn.texts[torn.texts.len() - 1].clone();
    torn.texts.push(more);
    torn.ends.push(b"\r\n");
    one_line_feed(random, &mut torn);
    wrong_count(random, &mut torn);
    torn
}

fn a_thousand_lines(random: &mut Random) -> (Vec<u8>, Outcome) {
    let torn = torn_of_a_thousand(random);
    let count = torn.count_line().expect("there is a count line");
    (torn.bytes(), refused(4, count))
}

/// What is wrong in the head comes before the count, and what is wrong with a
/// record behind it.
fn a_thousand_lines_and_broken(random: &mut Random) -> (Vec<u8>, Outcome) {
    let mut torn = torn_of_a_thousand(random);
    let count = torn.count_line().expect("there is a count line");
    let outcome = match random.below(3) {
        0 => {
            let place = random.between(1, REMARKS_LINE - 1);
            torn.texts[place][0] = b'!';
            refused(3, place)
        }
        1 => {
            let place = random.between(count + 1, torn.texts.len() - 1);
            torn.texts[place][0] = b'!';
            refused(4, count)
        }
        // A blank line counts as any other.
        _ => {
            let last = torn.texts.len() - 1;
            torn.texts[last].clear();
            refused(4, count)
        }
    };
    (torn.bytes(), outcome)
}

fn return_behind(random: &mut Random) -> (Vec<u8>, Outcome) {
    let made = draft::small(random);
    let mut torn = Torn::of(&made.bytes());
    mixture(random, &mut torn);
    // The line before is not the last any more.
    *torn.ends.last_mut().expect("there are lines") = b"\r\n";
    torn.texts.push(Vec::new());
    torn.ends.push(b"\r");
    (torn.bytes(), refused(5, made.lines().len()))
}

fn blank_lines_behind(random: &mut Random) -> (Vec<u8>, Outcome) {
    let made = draft::small(random);
    let mut torn = Torn::of(&made.bytes());
    for _ in 0..random.between(1, 4) {
        let spaces = *random.pick(&[0, 0, 1, 5]);
        torn.texts.push(vec![b' '; spaces]);
        torn.ends.push(random.pick::<&[u8]>(&[b"\r\n", b"\n"]));
    }
    if random.chance(50) {
        wrong_count(random, &mut torn);
    }
    (torn.bytes(), refused(5, made.lines().len()))
}

fn no_digits(random: &mut Random) -> (Vec<u8>, Outcome) {
    let made = draft::small(random);
    let mut torn = Torn::of(&made.bytes());
    mixture(random, &mut torn);
    torn.texts[made.count_line()] = random.pick(&NO_DIGITS).as_bytes().to_vec();
    (torn.bytes(), refused(4, made.count_line()))
}

fn spaces_on_count(random: &mut Random) -> (Vec<u8>, Outcome) {
    let made = draft::small(random);
    let mut torn = Torn::of(&made.bytes());
    torn.add_spaces(made.count_line(), random.between(1, 3));
    some_line_feeds(random, &mut torn);
    (torn.bytes(), refused(4, made.count_line()))
}

// Logs of which only the mender can tell what becomes of them.

fn chewed_lines(random: &mut Random) -> Torn {
    let mut torn = Torn::of(&draft::small_with_all_parts(random).bytes());
    mixture(random, &mut torn);
    torn
}

fn spaces_on_head(random: &mut Random) -> (Vec<u8>, Outcome) {
    let mut torn = chewed_lines(random);
    let place = if random.chance(20) { REMARKS_LINE } else { random.below(REMARKS_LINE) };
    torn.add_spaces(place, random.between(1, 4));
    (torn.bytes(), Outcome::Open)
}

/// Bytes at the end of a record that look like spaces and are none, with
/// spaces around them.
fn other_white(random: &mut Random) -> (Vec<u8>, Outcome) {
    let mut torn = chewed_lines(random);
    let place = torn.some_record(random).expect("there is a record");
    torn.add_spaces(place, random.below(3));
    torn.texts[place].push(*random.pick(b"\t\x0b\x0c\x00\x1f\x7f\xa0\r"));
    torn.add_spaces(place, random.below(3));
    (torn.bytes(), Outcome::Open)
}

fn insert(log: &mut Vec<u8>, at: usize, bytes: &[u8]) {
    log.splice(at..at, bytes.iter().copied());
}

fn lone_return(random: &mut Random) -> (Vec<u8>, Outcome) {
    let mut log = chewed_lines(random).bytes();
    // Before a line feed it is the return that a bare one lacks, or one more.
    let feeds: Vec<usize> = (0..log.len()).filter(|&at| log[at] == b'\n').collect();
    let at = if random.chance(50) && !feeds.is_empty() { *random.pick(&feeds) } else { random.below(log.len() + 1) };
    insert(&mut log, at, b"\r");
    (log, Outcome::Open)
}

/// Mostly among the remarks, where a line may be broken.
fn line_feed_inside(random: &mut Random) -> (Vec<u8>, Outcome) {
    let mut torn = chewed_lines(random);
    let count = torn.count_line().expect("there is a count line");
    let place = if random.chance(75) { random.between(FIRST_REMARK, count - 1) } else { random.below(torn.texts.len()) };
    let at = random.below(torn.texts[place].len() + 1);
    let end: &[u8] = random.pick::<&[u8]>(&[b"\n", b"\n", b"\r\n", b"\n\r"]);
    insert(&mut torn.texts[place], at, end);
    (torn.bytes(), Outcome::Open)
}

fn no_mark(random: &mut Random) -> (Vec<u8>, Outcome) {
    let mut torn = chewed_lines(random);
    if random.chance(50) {
        torn.texts[REMARKS_LINE] = random.pick(&["[remarks]", "[Remarks", "[Remarks]\r", " [Remarks]", ""]).as_bytes().to_vec();
    } else {
        torn.texts.remove(REMARKS_LINE);
        torn.ends.remove(REMARKS_LINE);
    }
    (torn.bytes(), Outcome::Open)
}

fn insert_line(random: &mut Random, torn: &mut Torn, most: usize, text: &[u8]) {
    let place = random.below(most + 1);
    torn.texts.insert(place, text.to_vec());
    torn.ends.insert(place, random.pick::<&[u8]>(&[b"\r\n", b"\n"]));
}

fn mark_elsewhere(random: &mut Random) -> (Vec<u8>, Outcome) {
    let mut torn = chewed_lines(random);
    insert_line(random, &mut torn, REMARKS_LINE, REMARKS_MARK);
    (torn.bytes(), Outcome::Open)
}

/// Among the remarks it is the count line, and makes records of what follows.
fn count_line_elsewhere(random: &mut Random) -> (Vec<u8>, Outcome) {
    let mut torn = chewed_lines(random);
    let last = torn.texts.len() - 1;
    let text = random.pick(&["[QSORecords;0]", "[QSORecords;3]", "[QSORecords;03] ", "[QSORecords;", "[QSORecords;]"]).as_bytes();
    insert_line(random, &mut torn, last, text);
    (torn.bytes(), Outcome::Open)
}

fn faulty(random: &mut Random) -> (Vec<u8>, Outcome) {
    let mut torn = Torn::of(&faults::some_fault(random));
    mixture(random, &mut torn);
    (torn.bytes(), Outcome::Open)
}

fn damaged(random: &mut Random) -> (Vec<u8>, Outcome) {
    let mut log = chewed_lines(random).bytes();
    damage(random, &mut log);
    (log, Outcome::Open)
}

fn pieces(random: &mut Random) -> Vec<u8> {
    let count = random.below(14);
    (0..count).flat_map(|_| random.pick(&PIECES).bytes()).collect()
}

fn pieces_behind_head(random: &mut Random) -> (Vec<u8>, Outcome) {
    let lines = draft::small(random).lines();
    let mut torn = Torn::of(&draft::join(&lines[..FIRST_REMARK]));
    some_line_feeds(random, &mut torn);
    let mut log = torn.bytes();
    if random.chance(60) {
        log.extend_from_slice(b"[QSORecords;1]\n240302;1401;DK1AA;;;;;;;;1;;;;");
    }
    log.extend(pieces(random));
    (log, Outcome::Open)
}

fn pieces_alone(random: &mut Random) -> (Vec<u8>, Outcome) {
    (pieces(random), Outcome::Open)
}
