//! A session: records that come one by one, the last of which can be given
//! back, and their judgement whenever it is asked for.
//!
//! `Session` keeps the lines and judges all of them anew each time. What a
//! caller in C holds of it is `Memory`: numbers, verdicts, and some bytes of
//! each record. Nothing keeps a caller from altering those, so what is answered
//! then is defined here too, as far as it is settled.

use crate::fields;
use crate::judging::{class, has_mark, judge_entries, sum_up, Entry, Rate, Rates, Totals};
use crate::judging::{CREDITED, DUPLICATE, ERROR, NEW_COUNTRY, NEW_EXCHANGE, NEW_SQUARE, VOID};
use crate::reading::{split_record, Record, Refusal, Span};

pub const MOST_RECORDS: usize = 999;
/// What is kept of a record: call 14, square 4, exchange 6, points 3, mode 1.
pub const KEPT_BYTES: usize = 28;
const HIGHEST_BONUS: u64 = 9_999;
const HIGHEST_MULTIPLIER: u64 = 99;
const MOST_POINTS: u64 = 999_999;

/// How many bytes a caller lends for verdicts and for what is kept.
#[derive(Clone, Copy, Debug, PartialEq, Eq)]
pub struct Lent {
    pub verdicts: usize,
    pub kept: usize,
}

impl Lent {
    /// Enough for every session.
    pub const ENOUGH: Lent = Lent { verdicts: MOST_RECORDS, kept: MOST_RECORDS * KEPT_BYTES };

    fn holds(self, records: usize) -> bool {
        self.verdicts >= records && self.kept >= records * KEPT_BYTES
    }
}

const FULL: Refusal = Refusal { number: 11, line: 0, field: 0 };
const NOTHING_TO_GIVE_BACK: Refusal = Refusal { number: 12, line: 0, field: 0 };

fn is_rate(rate: Rate) -> bool {
    rate.bonus <= HIGHEST_BONUS && (1..=HIGHEST_MULTIPLIER).contains(&rate.multiplier)
}

fn are_rates(rates: Rates) -> bool {
    is_rate(rates.squares) && is_rate(rates.exchanges) && is_rate(rates.countries)
}

/// Reads a record that stands by itself, without CR LF.
pub fn read_line(line: &[u8]) -> Result<Record, Refusal> {
    let whole = Span { start: 0, end: line.len() };
    split_record(line, whole).map_err(|field| Refusal { number: 5, line: 0, field })
}

/// The record of a line that is known to keep the rules.
fn entry(line: &[u8]) -> Entry<'_> {
    Entry::of(line, &read_line(line).expect("the line was read before"))
}

#[derive(Clone, Debug)]
pub struct Session {
    rates: Rates,
    lines: Vec<Vec<u8>>,
}

impl Session {
    pub fn start(rates: Rates) -> Result<Session, Refusal> {
        if !are_rates(rates) {
            return Err(Refusal::whole(4));
        }
        Ok(Session { rates, lines: Vec::new() })
    }

    pub fn records(&self) -> usize {
        self.lines.len()
    }

    pub fn take(&mut self, line: &[u8], lent: Lent) -> Result<(), Refusal> {
        read_line(line)?;
        if self.records() == MOST_RECORDS || !lent.holds(self.records() + 1) {
            return Err(FULL);
        }
        self.lines.push(line.to_vec());
        Ok(())
    }

    pub fn give_back(&mut self, lent: Lent) -> Result<(), Refusal> {
        if self.records() == 0 || !lent.holds(self.records()) {
            return Err(NOTHING_TO_GIVE_BACK);
        }
        self.lines.pop();
        Ok(())
    }

    /// What judging the records now present gives.
    pub fn judged(&self) -> (Totals, Vec<u8>) {
        let entries: Vec<Entry> = self.lines.iter().map(|line| entry(line)).collect();
        judge_entries(&entries, &self.rates)
    }

    pub fn memory(&self) -> Memory {
        let (totals, verdicts) = self.judged();
        let kept = self.lines.iter().zip(&verdicts).flat_map(|(line, &verdict)| kept_of(line, verdict)).collect();
        Memory { numbers: Numbers { rates: self.rates, counts: Counts::of(&totals) }, verdicts, kept }
    }
}

/// A text with zero bytes behind it, up to this length.
pub fn filled(text: &[u8], length: usize) -> Vec<u8> {
    let mut bytes = text.to_vec();
    bytes.resize(length, 0);
    bytes
}

/// What is kept of a line that has this verdict.
pub fn kept_of(line: &[u8], verdict: u8) -> Vec<u8> {
    if class(verdict) != CREDITED {
        return vec![0; KEPT_BYTES];
    }
    let entry = entry(line);
    let points = entry.points.to_le_bytes();
    [filled(entry.call, 14), filled(entry.square, 4), filled(entry.exchange, 6), points[..3].to_vec(), filled(entry.mode, 1)].concat()
}

/// What a session counts, in the order of the header.
#[derive(Clone, Copy, Debug, PartialEq, Eq)]
pub struct Counts {
    pub credited: u64,
    pub voids: u64,
    pub duplicates: u64,
    pub errors: u64,
    pub points: u64,
    pub squares: u64,
    pub exchanges: u64,
    pub countries: u64,
    pub modes: [u64; 11],
}

impl Counts {
    pub const NONE: Counts = Counts {
        credited: 0,
        voids: 0,
        duplicates: 0,
        errors: 0,
        points: 0,
        squares: 0,
        exchanges: 0,
        countries: 0,
        modes: [0; 11],
    };

    fn of(totals: &Totals) -> Counts {
        Counts {
            credited: totals.credited,
            voids: totals.voids,
            duplicates: totals.duplicates,
            errors: totals.errors,
            points: totals.points,
            squares: totals.squares,
            exchanges: totals.exchanges,
            countries: totals.countries,
            modes: totals.modes,
        }
    }

    fn as_list(&self) -> Vec<u64> {
        let Counts { credited, voids, duplicates, errors, points, squares, exchanges, countries, modes } = *self;
        let mut list = vec![credited, voids, duplicates, errors, points, squares, exchanges, countries];
        list.extend(modes);
        list
    }

    fn from_list(list: &[u64]) -> Counts {
        Counts {
            credited: list[0],
            voids: list[1],
            duplicates: list[2],
            errors: list[3],
            points: list[4],
            squares: list[5],
            exchanges: list[6],
            countries: list[7],
            modes: list[8..].try_into().expect("eleven modes"),
        }
    }

    /// These counts without others, if none of them is smaller than its other.
    fn without(&self, others: &Counts) -> Option<Counts> {
        let pairs = self.as_list().into_iter().zip(others.as_list());
        let list: Option<Vec<u64>> = pairs.map(|(count, other)| count.checked_sub(other)).collect();
        list.map(|list| Counts::from_list(&list))
    }
}

/// The numbers that a caller in C holds of a session.
#[derive(Clone, Copy, Debug, PartialEq, Eq)]
pub struct Numbers {
    pub rates: Rates,
    pub counts: Counts,
}

/// How many numbers there are.
pub const NUMBERS: usize = 25;

impl Numbers {
    pub fn as_list(&self) -> [u64; NUMBERS] {
        let Rates { squares, exchanges, countries } = self.rates;
        let rates = [squares, exchanges, countries].into_iter().flat_map(|rate| [rate.bonus, rate.multiplier]);
        let list: Vec<u64> = rates.chain(self.counts.as_list()).collect();
        list.try_into().expect("so many numbers")
    }

    pub fn from_list(list: [u64; NUMBERS]) -> Numbers {
        let rate = |at: usize| Rate { bonus: list[at], multiplier: list[at + 1] };
        let rates = Rates { squares: rate(0), exchanges: rate(2), countries: rate(4) };
        Numbers { rates, counts: Counts::from_list(&list[6..]) }
    }

    /// How many records there are, whatever the numbers are.
    fn records(&self) -> u128 {
        let Counts { credited, voids, duplicates, errors, .. } = self.counts;
        [credited, voids, duplicates, errors].into_iter().map(u128::from).sum()
    }

    /// Whether some run of calls may have made these numbers, as far as this is
    /// asked.
    pub fn may_be(&self) -> bool {
        let counts = &self.counts;
        let credited = counts.credited;
        let of_modes: u128 = counts.modes.into_iter().map(u128::from).sum();
        are_rates(self.rates)
            && self.records() <= MOST_RECORDS as u128
            && counts.points >= credited
            && counts.points <= credited * MOST_POINTS
            && [counts.squares, counts.exchanges, counts.countries].into_iter().all(|count| count <= credited)
            && of_modes == u128::from(credited)
            && (counts.duplicates == 0 || credited > 0)
    }

    pub fn totals(&self) -> Totals {
        if !self.may_be() {
            return Totals::default();
        }
        let Counts { credited, voids, duplicates, errors, points, squares, exchanges, countries, modes } = self.counts;
        let mut totals =
            Totals { credited, voids, duplicates, errors, points, squares, exchanges, countries, modes, ..Totals::default() };
        sum_up(&mut totals, &self.rates);
        totals
    }
}

/// What a record with this verdict and these kept bytes brings, if there can be
/// such a record at all.
pub fn brought(verdict: u8, kept: &[u8]) -> Option<Counts> {
    match verdict {
        VOID => return Some(Counts { voids: 1, ..Counts::NONE }),
        DUPLICATE => return Some(Counts { duplicates: 1, ..Counts::NONE }),
        ERROR => return Some(Counts { errors: 1, ..Counts::NONE }),
        _ if verdict & !(NEW_EXCHANGE | NEW_SQUARE | NEW_COUNTRY) != CREDITED => return None,
        _ => {}
    }
    let points = u64::from(kept[24]) | u64::from(kept[25]) << 8 | u64::from(kept[26]) << 16;
    let mode = if kept[27] == 0 { &[][..] } else { &kept[27..28] };
    let place = fields::MODES.iter().position(|name| name.as_bytes() == mode)?;
    if !(1..=MOST_POINTS).contains(&points) {
        return None;
    }
    let mut counts = Counts {
        credited: 1,
        points,
        squares: u64::from(has_mark(verdict, NEW_SQUARE)),
        exchanges: u64::from(has_mark(verdict, NEW_EXCHANGE)),
        countries: u64::from(has_mark(verdict, NEW_COUNTRY)),
        ..Counts::NONE
    };
    counts.modes[place] = 1;
    Some(counts)
}

/// The verdicts that a line can have, whatever was taken before it.
pub fn possible_verdicts(line: &[u8]) -> Vec<u8> {
    let entry = entry(line);
    match (entry.call == fields::ERROR_CALL, entry.points, entry.claims_duplicate) {
        (true, _, _) => vec![ERROR],
        (false, 0, false) => vec![VOID],
        (false, 0, true) => vec![VOID, DUPLICATE],
        _ => {
            let country = if entry.claims_country { NEW_COUNTRY } else { 0 };
            let exchanges = if entry.exchange.is_empty() { vec![0] } else { vec![0, NEW_EXCHANGE] };
            let squares = if entry.square.is_empty() { vec![0] } else { vec![0, NEW_SQUARE] };
            let mut verdicts = vec![DUPLICATE];
            for exchange in exchanges {
                verdicts.extend(squares.iter().map(|square| CREDITED + exchange + square + country));
            }
            verdicts
        }
    }
}

/// What lies in the memory of a caller in C: the numbers and the two slices.
#[derive(Clone, Debug, PartialEq, Eq)]
pub struct Memory {
    pub numbers: Numbers,
    pub verdicts: Vec<u8>,
    pub kept: Vec<u8>,
}

/// What is settled of a call on memory that no run of calls need have made.
#[derive(Clone, Debug, PartialEq, Eq)]
pub enum Settled {
    Refused(Refusal),
    /// Taken or given back, and these are the numbers then.
    Accepted(Numbers),
    /// The record is taken at this place, and which verdict it has is open.
    TakenAt(usize),
    /// Whether the record at this place can be given back is open.
    Open(usize),
}

impl Memory {
    /// How many records the numbers speak of, where they may be.
    fn records(&self) -> Option<usize> {
        self.numbers.may_be().then(|| self.numbers.records() as usize)
    }

    pub fn take(&self, line: &[u8], lent: Lent) -> Settled {
        if let Err(refusal) = read_line(line) {
            return Settled::Refused(refusal);
        }
        match self.records() {
            Some(records) if records < MOST_RECORDS && lent.holds(records + 1) => Settled::TakenAt(records),
            _ => Settled::Refused(FULL),
        }
    }

    pub fn give_back(&self, lent: Lent) -> Settled {
        let records = match self.records() {
            Some(records) if records > 0 && lent.holds(records) => records,
            _ => return Settled::Refused(NOTHING_TO_GIVE_BACK),
        };
        let place = records - 1;
        let kept = &self.kept[place * KEPT_BYTES..records * KEPT_BYTES];
        match brought(self.verdicts[place], kept) {
            None => Settled::Open(place),
            Some(counts) => match self.numbers.counts.without(&counts) {
                Some(counts) => Settled::Accepted(Numbers { counts, ..self.numbers }),
                None => Settled::Refused(NOTHING_TO_GIVE_BACK),
            },
        }
    }
}
