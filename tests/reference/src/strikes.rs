//! Strikes to try on a log: which of its records are struck, by which bytes,
//! and how much is lent for what is left.

use crate::judging::{self, judge_log};
use crate::random::Random;
use crate::reading::{read, Log, LONGEST_LOG};
use crate::striking::{places, strike_log};

pub struct Strike {
    /// What is struck, for messages.
    pub name: &'static str,
    /// A byte for each record, or fewer, or more.
    pub struck: Vec<u8>,
    /// How many bytes the lent output slice holds.
    pub output_len: usize,
}

/// A log and the classes of its records.
struct Judged<'a> {
    log: &'a Log<'a>,
    classes: Vec<u8>,
}

type Chooser = fn(&mut Random, &Judged) -> Vec<bool>;

/// Which records are struck. Those with `freed` in their name look for a repeat
/// that such a strike can make a contact; where there is none they strike one
/// record.
const CHOOSERS: &[(&str, Chooser)] = &[
    ("none", none),
    ("all", all),
    ("one", one),
    ("half", half),
    ("credited", credited),
    ("duplicates", duplicates),
    ("freed", freed),
    ("nearly-freed", nearly_freed),
    ("to-a-count", to_a_count),
];

/// A log with more records is large, and has only a few strikes: each costs as
/// much as a hundred of small ones.
const FEW_RECORDS: usize = 100;
const STRIKES_OF_LARGE: usize = 3;

/// Every name a strike can have.
pub fn names() -> Vec<&'static str> {
    CHOOSERS.iter().map(|kind| kind.0).chain(["of-a-refused-log"]).collect()
}

/// The strikes of one log: of each kind, if it is not large.
pub fn strikes(random: &mut Random, bytes: &[u8]) -> Vec<Strike> {
    let Ok(log) = read(bytes) else { return vec![of_a_refused_log(random, bytes)] };
    let (_, verdicts) = judge_log(&log);
    let judged = Judged { log: &log, classes: verdicts.into_iter().map(judging::class).collect() };
    let count = if log.records.len() > FEW_RECORDS { STRIKES_OF_LARGE } else { CHOOSERS.len() };
    let first = random.below(CHOOSERS.len());
    (first..first + count).map(|turn| strike(random, &judged, CHOOSERS[turn % CHOOSERS.len()])).collect()
}

fn strike(random: &mut Random, judged: &Judged, (name, choose): (&'static str, Chooser)) -> Strike {
    let chosen = choose(random, judged);
    let struck = slice(random, &chosen);
    // A slice that is too short lends what the whole one would need.
    let chosen = places(&struck, chosen.len()).unwrap_or(chosen);
    let output_len = room(random, strike_log(judged.log, &chosen).len(), judged.log.bytes.len());
    Strike { name, struck, output_len }
}

/// Nothing bounds the sizes for a log that is refused; these are as good as any.
fn of_a_refused_log(random: &mut Random, bytes: &[u8]) -> Strike {
    let length = *random.pick(&[0, 1, 12, 999, 1_000]);
    let struck = (0..length).map(|_| random.below(256) as u8).collect();
    let output_len = *random.pick(&[0, 1, 700, bytes.len(), LONGEST_LOG + 1]);
    Strike { name: "of-a-refused-log", struck, output_len }
}

/// The bytes that strike these records: any but 0 do. Behind them trash may
/// follow, and at times some of them are missing.
fn slice(random: &mut Random, chosen: &[bool]) -> Vec<u8> {
    let ones = random.chance(30);
    let mut struck: Vec<u8> = chosen.iter().map(|&gone| if gone { mark(random, ones) } else { 0 }).collect();
    match random.below(12) {
        0 => struck.truncate(chosen.len().saturating_sub(1)),
        1 => struck.truncate(random.below(chosen.len() + 1)),
        2 => struck.push(*random.pick(&[0, 1, 255])),
        3..=5 => struck.extend((0..random.between(1, 40)).map(|_| random.below(256) as u8)),
        6 => struck.resize(999.max(chosen.len()), 255),
        _ => {}
    }
    struck
}

fn mark(random: &mut Random, ones: bool) -> u8 {
    if ones {
        return 1;
    }
    *random.pick(&[1, 2, 16, 127, 128, 254, 255, b'0', b'D', b' '])
}

/// Room for a result of this length, from a log of that one.
fn room(random: &mut Random, result: usize, whole: usize) -> usize {
    match random.below(12) {
        0 | 1 => result - 1,
        2 => random.below(result),
        3 => result + 1,
        4 | 5 => result + random.between(2, 80),
        6 => whole,
        7 => LONGEST_LOG,
        _ => result,
    }
}

impl Judged<'_> {
    fn records(&self) -> usize {
        self.classes.len()
    }

    fn claims_points(&self, at: usize) -> bool {
        self.log.text(self.log.records[at][10]) != b"0"
    }

    fn call(&self, at: usize) -> &[u8] {
        self.log.text(self.log.records[at][2])
    }

    /// The earlier records of its call that claim points.
    fn before(&self, at: usize) -> Vec<usize> {
        (0..at).filter(|&other| self.call(other) == self.call(at) && self.claims_points(other)).collect()
    }

    /// The places of a class.
    fn places_of(&self, class: u8) -> Vec<usize> {
        (0..self.records()).filter(|&at| self.classes[at] == class).collect()
    }

    fn only(&self, places: &[usize]) -> Vec<bool> {
        let mut chosen = vec![false; self.records()];
        places.iter().for_each(|&at| chosen[at] = true);
        chosen
    }
}

fn none(_: &mut Random, judged: &Judged) -> Vec<bool> {
    judged.only(&[])
}

fn all(_: &mut Random, judged: &Judged) -> Vec<bool> {
    vec![true; judged.records()]
}

fn one(random: &mut Random, judged: &Judged) -> Vec<bool> {
    match judged.records() {
        0 => Vec::new(),
        records => judged.only(&[random.below(records)]),
    }
}

fn half(random: &mut Random, judged: &Judged) -> Vec<bool> {
    (0..judged.records()).map(|_| random.chance(50)).collect()
}

/// Each contact goes, and with it what made its repeats duplicates.
fn credited(_: &mut Random, judged: &Judged) -> Vec<bool> {
    judged.only(&judged.places_of(judging::CREDITED))
}

fn duplicates(_: &mut Random, judged: &Judged) -> Vec<bool> {
    judged.only(&judged.places_of(judging::DUPLICATE))
}

/// A duplicate's earlier records that claim points; one that claims them itself
/// is taken if there is one, since only that becomes credited.
fn before_a_duplicate(random: &mut Random, judged: &Judged, at_least: usize) -> Option<Vec<usize>> {
    let mut repeats = judged.places_of(judging::DUPLICATE);
    repeats.retain(|&at| judged.before(at).len() >= at_least);
    let claiming: Vec<usize> = repeats.iter().copied().filter(|&at| judged.claims_points(at)).collect();
    let repeats = if claiming.is_empty() { repeats } else { claiming };
    if repeats.is_empty() {
        return None;
    }
    Some(judged.before(*random.pick(&repeats)))
}

fn freed(random: &mut Random, judged: &Judged) -> Vec<bool> {
    match before_a_duplicate(random, judged, 1) {
        Some(before) => judged.only(&before),
        None => one(random, judged),
    }
}

/// One of the records that would have to go stays.
fn nearly_freed(random: &mut Random, judged: &Judged) -> Vec<bool> {
    let Some(mut before) = before_a_duplicate(random, judged, 2) else { return one(random, judged) };
    before.remove(random.below(before.len()));
    judged.only(&before)
}

/// As many records are left as take one digit more or fewer in the count line.
fn to_a_count(random: &mut Random, judged: &Judged) -> Vec<bool> {
    let counts: Vec<usize> = [0, 1, 9, 10, 99, 100].into_iter().filter(|&count| count <= judged.records()).collect();
    let mut chosen = vec![true; judged.records()];
    for _ in 0..*random.pick(&counts) {
        let struck: Vec<usize> = (0..chosen.len()).filter(|&at| chosen[at]).collect();
        chosen[*random.pick(&struck)] = false;
    }
    chosen
}
