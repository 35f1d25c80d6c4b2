//! Classes, marks and sums of the records of an accepted log.

use crate::fields::{self, MODES};
use crate::reading::{read, Log, Record, Refusal};

pub const CREDITED: u8 = 0;
pub const VOID: u8 = 1;
pub const DUPLICATE: u8 = 2;
pub const ERROR: u8 = 3;
pub const NEW_EXCHANGE: u8 = 16;
pub const NEW_SQUARE: u8 = 32;
pub const NEW_COUNTRY: u8 = 64;

#[derive(Clone, Copy, Debug, Default, PartialEq, Eq)]
pub struct Totals {
    pub credited: u64,
    pub voids: u64,
    pub duplicates: u64,
    pub errors: u64,
    pub points: u64,
    pub squares: u64,
    pub exchanges: u64,
    pub countries: u64,
    pub square_bonus: u64,
    pub exchange_bonus: u64,
    pub country_bonus: u64,
    pub total: u64,
    /// How many credited records have each of `MODES`.
    pub modes: [u64; 11],
}

impl Totals {
    /// The twelve numbers in front of the modes, in the order in which they are
    /// declared.
    pub fn as_list(&self) -> [u64; 12] {
        [
            self.credited,
            self.voids,
            self.duplicates,
            self.errors,
            self.points,
            self.squares,
            self.exchanges,
            self.countries,
            self.square_bonus,
            self.exchange_bonus,
            self.country_bonus,
            self.total,
        ]
    }
}

/// What judging looks at in one record.
pub struct Entry<'a> {
    pub call: &'a [u8],
    pub mode: &'a [u8],
    pub exchange: &'a [u8],
    /// The first four characters of the locator, nothing if it is empty.
    pub square: &'a [u8],
    pub points: u64,
    pub claims_country: bool,
    pub claims_duplicate: bool,
}

impl<'a> Entry<'a> {
    /// Of a record that keeps its rules, and lies in these bytes.
    pub fn of(bytes: &'a [u8], record: &Record) -> Entry<'a> {
        let text = |field: usize| &bytes[record[field].start..record[field].end];
        let locator = text(9);
        Entry {
            call: text(2),
            mode: text(3),
            exchange: text(8),
            square: &locator[..locator.len().min(4)],
            points: fields::points(text(10)).expect("points were read"),
            claims_country: text(13) == b"N",
            claims_duplicate: text(14) == b"D",
        }
    }
}

/// What of a record the credited ones before it have too.
#[derive(Clone, Copy)]
pub struct Before {
    pub call: bool,
    pub square: bool,
    pub exchange: bool,
}

impl Before {
    fn among(earlier_credited: &[&Entry], entry: &Entry) -> Before {
        Before {
            call: earlier_credited.iter().any(|other| other.call == entry.call),
            square: earlier_credited.iter().any(|other| other.square == entry.square),
            exchange: earlier_credited.iter().any(|other| other.exchange == entry.exchange),
        }
    }
}

/// W3: "A record with 0 points and no D is void even if its call was credited
/// before; a duplicate needs points or a claimed D." The claim alone makes no
/// duplicate: without an earlier credited record of the call there is nothing
/// to repeat.
fn class_of(entry: &Entry, before: Before) -> u8 {
    let claims_a_contact = entry.points != 0 || entry.claims_duplicate;
    if entry.call == fields::ERROR_CALL {
        ERROR
    } else if before.call && claims_a_contact {
        DUPLICATE
    } else if entry.points == 0 {
        VOID
    } else {
        CREDITED
    }
}

/// The marks of a credited record.
fn marks_of(entry: &Entry, before: Before) -> u8 {
    let mut marks = 0;
    if !entry.exchange.is_empty() && !before.exchange {
        marks += NEW_EXCHANGE;
    }
    if !entry.square.is_empty() && !before.square {
        marks += NEW_SQUARE;
    }
    if entry.claims_country {
        marks += NEW_COUNTRY;
    }
    marks
}

pub fn verdict_of(entry: &Entry, before: Before) -> u8 {
    match class_of(entry, before) {
        CREDITED => CREDITED + marks_of(entry, before),
        class => class,
    }
}

fn verdicts_of(entries: &[Entry]) -> Vec<u8> {
    let mut credited: Vec<&Entry> = Vec::new();
    let mut verdicts = Vec::new();
    for entry in entries {
        let verdict = verdict_of(entry, Before::among(&credited, entry));
        if class(verdict) == CREDITED {
            credited.push(entry);
        }
        verdicts.push(verdict);
    }
    verdicts
}

/// The class within a verdict, without its marks.
pub fn class(verdict: u8) -> u8 {
    verdict % 16
}

pub fn has_mark(verdict: u8, mark: u8) -> bool {
    verdict & mark != 0
}

/// What one new thing of a kind brings, and what the sum is multiplied by.
#[derive(Clone, Copy, Debug, PartialEq, Eq)]
pub struct Rate {
    pub bonus: u64,
    pub multiplier: u64,
}

/// The rates of squares, exchanges and countries.
#[derive(Clone, Copy, Debug, PartialEq, Eq)]
pub struct Rates {
    pub squares: Rate,
    pub exchanges: Rate,
    pub countries: Rate,
}

/// The bonus and the multiplier declared under one of the three keywords.
fn declared(log: &Log, keyword: &str) -> Rate {
    rate_of(log.text(log.argument(keyword)))
}

/// The bonus and the multiplier in an argument of one of these keywords.
pub fn rate_of(argument: &[u8]) -> Rate {
    let parts: Vec<&[u8]> = argument.split(|&b| b == b';').collect();
    let bonus = fields::up_to_9999(parts[1]).expect("a bonus was read");
    let multiplier = fields::multiplier(parts[2]).expect("a multiplier was read");
    Rate { bonus, multiplier }
}

/// Judges an accepted log.
pub fn judge_log(log: &Log) -> (Totals, Vec<u8>) {
    let entries: Vec<Entry> = log.records.iter().map(|record| Entry::of(log.bytes, record)).collect();
    let squares = declared(log, "CWWLs");
    let exchanges = declared(log, "CExcs");
    let countries = declared(log, "CDXCs");
    judge_entries(&entries, &Rates { squares, exchanges, countries })
}

/// Judges records in their order.
pub fn judge_entries(entries: &[Entry], rates: &Rates) -> (Totals, Vec<u8>) {
    let verdicts = verdicts_of(entries);
    let in_class = |wanted| verdicts.iter().filter(|&&v| class(v) == wanted).count() as u64;
    let marked = |mark| verdicts.iter().filter(|&&v| has_mark(v, mark)).count() as u64;
    let judged = entries.iter().zip(&verdicts);
    let credited: Vec<&Entry> = judged.filter(|(_, &verdict)| class(verdict) == CREDITED).map(|(entry, _)| entry).collect();
    let points = credited.iter().map(|entry| entry.points).sum();
    let by_mode = |mode: &str| credited.iter().filter(|entry| entry.mode == mode.as_bytes()).count() as u64;

    let mut totals = Totals {
        credited: in_class(CREDITED),
        voids: in_class(VOID),
        duplicates: in_class(DUPLICATE),
        errors: in_class(ERROR),
        points,
        squares: marked(NEW_SQUARE),
        exchanges: marked(NEW_EXCHANGE),
        countries: marked(NEW_COUNTRY),
        modes: MODES.map(by_mode),
        ..Totals::default()
    };
    sum_up(&mut totals, rates);
    (totals, verdicts)
}

/// Sets the bonuses and the total by what is counted.
pub fn sum_up(totals: &mut Totals, rates: &Rates) {
    totals.square_bonus = totals.squares * rates.squares.bonus;
    totals.exchange_bonus = totals.exchanges * rates.exchanges.bonus;
    totals.country_bonus = totals.countries * rates.countries.bonus;
    let sum = totals.points + totals.square_bonus + totals.exchange_bonus + totals.country_bonus;
    totals.total = sum * rates.squares.multiplier * rates.exchanges.multiplier * rates.countries.multiplier;
}

/// Judges a log for a caller who lends room for `verdicts_len` verdicts.
pub fn judge(bytes: &[u8], verdicts_len: usize) -> Result<(Totals, Vec<u8>), Refusal> {
    let log = read(bytes)?;
    if verdicts_len < log.records.len() {
        return Err(Refusal::whole(7));
    }
    Ok(judge_log(&log))
}
