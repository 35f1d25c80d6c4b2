//! Trials of the desk's verbs: logs of the generator, each with words that name
//! records to strike. The trials of a seed are the same on every machine.

use crate::generate::{self, Generator};
use crate::random::Random;
use crate::reading::{read, LONGEST_LOG};
use crate::writing::write;
use std::collections::BTreeSet;

/// A word for `strike`: a number, or two with a dash for all from the one to the
/// other.
#[derive(Clone, Copy, Debug, PartialEq, Eq)]
pub struct Word {
    pub first: usize,
    pub last: usize,
    /// One record may be named as `7-7` too.
    pub dashed: bool,
}

impl Word {
    pub fn text(&self) -> String {
        if self.dashed {
            return format!("{}-{}", self.first, self.last);
        }
        self.first.to_string()
    }
}

pub struct Trial {
    /// The number of its log with the generator.
    pub index: u64,
    pub tag: String,
    pub log: Vec<u8>,
    pub words: Vec<Word>,
}

impl Trial {
    /// The numbers of the records that are named.
    pub fn named(&self) -> BTreeSet<usize> {
        self.words.iter().flat_map(|word| word.first..=word.last).collect()
    }
}

/// The highest number that names a record.
const HIGHEST: usize = 999;

pub const MOST_WORDS: usize = 12;
pub const MOST_STRUCK: usize = 40;

/// A log with more records is large. Each strike judges all of it, so that only
/// the first of a run has as many as a small one.
pub const FEW_RECORDS: usize = 100;
pub const STRUCK_OF_LARGE: usize = 4;

/// Of the logs that are refused every so many-th is taken: they are most of those
/// that the generator makes, and a verb has one thing to say of them.
const REFUSED_APART: usize = 5;

/// The generator's kinds come in turn, the rarest after hundreds of other trials.
/// Steps of this length spread a short run over all of them.
const STEP: u64 = 369;

/// The trials of a run, without end.
pub struct Trials {
    seed: u64,
    generator: Generator,
    turn: u64,
    refused: usize,
    large: usize,
}

impl Trials {
    pub fn new(seed: u64) -> Trials {
        Trials { seed, generator: Generator::new(seed), turn: 0, refused: 0, large: 0 }
    }

    /// The words for a log of the generator, if it is taken.
    fn words(&mut self, random: &mut Random, made: &generate::Trial) -> Option<Vec<Word>> {
        let Ok(log) = read(&made.log) else {
            self.refused += 1;
            return (self.refused % REFUSED_APART == 1).then(|| any_words(random));
        };
        let records = log.records.len();
        let most = self.most_struck(&made.log, records);
        Some(words(random, made, records, most))
    }

    /// How many records are struck at most. What cannot be written back for its
    /// length stays so by one strike, if by any.
    fn most_struck(&mut self, log: &[u8], records: usize) -> usize {
        let is_large = records > FEW_RECORDS;
        self.large += usize::from(is_large);
        match write(log, LONGEST_LOG) {
            Err(_) => 1,
            Ok(_) if is_large && self.large > 1 => STRUCK_OF_LARGE,
            Ok(_) => MOST_STRUCK,
        }
    }
}

impl Iterator for Trials {
    type Item = Trial;

    fn next(&mut self) -> Option<Trial> {
        loop {
            let index = self.turn * STEP;
            self.turn += 1;
            let made = self.generator.trial(index);
            // Not the numbers again that the log was made by.
            let mut random = Random::new(!self.seed, index);
            if let Some(words) = self.words(&mut random, &made) {
                return Some(Trial { index, tag: made.tag, log: made.log, words });
            }
        }
    }
}

/// Words for a log of so many records, of which so many are struck at most. At
/// times one names a record that is not there, and where there are none each does.
fn words(random: &mut Random, made: &generate::Trial, records: usize, most: usize) -> Vec<Word> {
    if records == 0 {
        return any_words(random);
    }
    let misses = random.chance(8) && records < HIGHEST;
    let chosen = chosen(random, made, records, most);
    let mut words = naming(random, &chosen);
    if random.chance(30) {
        words.push(again(random, &words));
    }
    if misses {
        words.push(beyond(random, records));
    }
    shuffle(random, &mut words);
    words
}

/// Where nothing is struck anyway.
fn any_words(random: &mut Random) -> Vec<Word> {
    let count = random.between(1, 3);
    (0..count).map(|_| beyond(random, 0)).collect()
}

/// The numbers of some records, in their order. The generator's strikes look for
/// repeats that a strike makes contacts; where none is struck by them, chance says
/// which.
fn chosen(random: &mut Random, made: &generate::Trial, records: usize, most: usize) -> Vec<usize> {
    let strike = random.pick(&made.strikes);
    let marked = (1..=records).zip(&strike.struck).filter(|(_, &byte)| byte != 0);
    let mut chosen: Vec<usize> = marked.map(|(number, _)| number).collect();
    if chosen.is_empty() {
        let some: BTreeSet<usize> = (0..random.between(1, 6)).map(|_| random.between(1, records)).collect();
        chosen.extend(some);
    }
    let spare = chosen.len().saturating_sub(most);
    chosen.drain(..random.below(spare + 1));
    chosen.truncate(most);
    chosen
}

/// Words that name of these records as many as words may, and no others;
/// neighbours mostly by one word.
fn naming(random: &mut Random, chosen: &[usize]) -> Vec<Word> {
    let mut words: Vec<Word> = Vec::new();
    for &number in chosen {
        match words.last_mut() {
            Some(word) if word.last + 1 == number && random.chance(70) => {
                word.last = number;
                word.dashed = true;
            }
            _ => words.push(Word { first: number, last: number, dashed: random.chance(10) }),
        }
    }
    shuffle(random, &mut words);
    // One may come that names some of them again, and one that misses.
    words.truncate(MOST_WORDS - 2);
    words
}

/// A word for some of the records that are named already.
fn again(random: &mut Random, words: &[Word]) -> Word {
    let word = random.pick(words);
    let (first, last) = (random.between(word.first, word.last), word.last);
    Word { first, last, dashed: first < last }
}

/// A word for records that a log of so many has not, the first of them perhaps
/// its last one.
fn beyond(random: &mut Random, records: usize) -> Word {
    let near = (records + 3).min(HIGHEST);
    let last = if random.chance(50) { random.between(records + 1, near) } else { random.between(records + 1, HIGHEST) };
    let first = if random.chance(30) { records.max(1) } else { last };
    Word { first, last, dashed: first < last }
}

fn shuffle(random: &mut Random, words: &mut [Word]) {
    for at in 1..words.len() {
        words.swap(at, random.below(at + 1));
    }
}
