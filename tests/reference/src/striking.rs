//! Striking records from a log, as the secretary does with doubtful ones, and
//! what demand 3 says of it.

use crate::judging::{self, judge_log, Totals};
use crate::reading::{read, Log, Refusal, COUNT_START};

/// Strikes records for a caller who says by a byte for each record whether it
/// is struck, 0 if it is not, and lends room for `out_len` bytes. What comes
/// behind the byte of the last record tells nothing.
pub fn strike(bytes: &[u8], struck: &[u8], out_len: usize) -> Result<Vec<u8>, Refusal> {
    let log = read(bytes)?;
    let Some(struck) = places(struck, log.records.len()) else { return Err(Refusal::whole(7)) };
    let rest = strike_log(&log, &struck);
    if rest.len() > out_len {
        return Err(Refusal::whole(8));
    }
    Ok(rest)
}

/// Which of so many records these bytes strike, if there is a byte for each.
pub fn places(struck: &[u8], records: usize) -> Option<Vec<bool>> {
    let of_records = struck.get(..records)?;
    Some(of_records.iter().map(|&byte| byte != 0).collect())
}

/// The log with the records at the struck places taken out and its count line
/// corrected. There must be a place for each record.
pub fn strike_log(log: &Log, struck: &[bool]) -> Vec<u8> {
    let Some(first) = log.records.first() else { return log.bytes.to_vec() };
    let head = &log.bytes[..first[0].start];
    // Remarks may look much like it, but the count line is the last of the head.
    let count = head.windows(COUNT_START.len()).rposition(|part| part == COUNT_START);
    let kept = struck.iter().filter(|&&gone| !gone).count();
    let mut rest = head[..count.expect("a count line")].to_vec();
    rest.extend(format!("[QSORecords;{kept}]\r\n").into_bytes());
    for (record, _) in log.records.iter().zip(struck).filter(|(_, &gone)| !gone) {
        rest.extend_from_slice(&log.bytes[record[0].start..record[14].end + 2]);
    }
    rest
}

/// A log, the records struck from it, and how it was judged before and is
/// after: what demand 3 speaks of.
pub struct Striking<'a> {
    log: &'a Log<'a>,
    struck: &'a [bool],
    before: &'a (Totals, Vec<u8>),
    after: (Totals, Vec<u8>),
}

impl<'a> Striking<'a> {
    /// Of a log, how it was judged, the records struck from it, and the bytes
    /// that striking made of it, which have to be a log themselves.
    pub fn new(log: &'a Log, before: &'a (Totals, Vec<u8>), struck: &'a [bool], rest: &[u8]) -> Result<Striking<'a>, String> {
        let rest = read(rest).map_err(|refusal| format!("what is left is refused: {refusal:?}"))?;
        let kept = struck.iter().filter(|&&gone| !gone).count();
        if rest.records.len() != kept {
            return Err(format!("{kept} records were kept, and {} are left", rest.records.len()));
        }
        Ok(Striking { log, struck, before, after: judge_log(&rest) })
    }

    pub fn before(&self) -> &Totals {
        &self.before.0
    }

    /// The totals and the verdicts of what is left.
    pub fn after(&self) -> &(Totals, Vec<u8>) {
        &self.after
    }

    /// The class before of each record that was not struck, and its class after.
    pub fn classes(&self) -> Vec<(u8, u8)> {
        self.kept().map(|(at, class)| (self.class_before(at), class)).collect()
    }

    /// How many duplicates became credited.
    pub fn promoted(&self) -> usize {
        let turned = (judging::DUPLICATE, judging::CREDITED);
        self.classes().into_iter().filter(|&classes| classes == turned).count()
    }

    /// The premise of what the demand says about the total.
    pub fn no_duplicate_claims_points(&self) -> bool {
        (0..self.struck.len()).all(|at| self.class_before(at) != judging::DUPLICATE || self.points(at) == 0)
    }

    /// The most by which the total may fall where that premise holds.
    pub fn most_fall(&self) -> u64 {
        let part = |keyword: &str, place: usize| {
            let text = self.log.text(self.log.argument(keyword));
            number(text.split(|&b| b == b';').nth(place).expect("three parts"))
        };
        let keywords = ["CWWLs", "CExcs", "CDXCs"];
        let bonuses: u64 = keywords.iter().map(|keyword| part(keyword, 1)).sum();
        let multipliers: u64 = keywords.iter().map(|keyword| part(keyword, 2)).product();
        let gone = (0..self.struck.len()).filter(|&at| self.struck[at] && self.class_before(at) == judging::CREDITED);
        gone.map(|at| self.points(at) + bonuses).sum::<u64>() * multipliers
    }

    /// What of demand 3 does not hold, if anything.
    pub fn fault(&self) -> Option<String> {
        self.fault_of_classes().or_else(|| self.fault_of_total())
    }

    fn fault_of_classes(&self) -> Option<String> {
        let (at, class) = self.kept().find(|&(at, class)| class != self.class_wanted(at))?;
        Some(format!("record {at} is of class {class} and should be of {}", self.class_wanted(at)))
    }

    fn fault_of_total(&self) -> Option<String> {
        if !self.no_duplicate_claims_points() {
            return None;
        }
        let (before, after, most) = (self.before.0.total, self.after.0.total, self.most_fall());
        let none_promoted = self.classes().iter().all(|&(before, after)| after != judging::CREDITED || before == judging::CREDITED);
        if none_promoted && after <= before && before - after <= most {
            return None;
        }
        Some(format!("the total was {before}, is {after}, and may fall by {most}; whether none is promoted: {none_promoted}"))
    }

    fn class_before(&self, at: usize) -> u8 {
        judging::class(self.before.1[at])
    }

    /// The classes afterwards of the records that were not struck, each with
    /// the place that it had before.
    fn kept(&self) -> impl Iterator<Item = (usize, u8)> + '_ {
        let places = (0..self.struck.len()).filter(|&at| !self.struck[at]);
        places.zip(self.after.1.iter().map(|&verdict| judging::class(verdict)))
    }

    fn points(&self, at: usize) -> u64 {
        number(self.log.text(self.log.records[at][10]))
    }

    /// Whether every earlier record of its call that claims points was struck.
    fn is_freed(&self, at: usize) -> bool {
        let call = |other: usize| self.log.text(self.log.records[other][2]);
        (0..at).all(|other| self.struck[other] || call(other) != call(at) || self.points(other) == 0)
    }

    /// What a record that was not struck has to become. When it is credited is
    /// the demand's; the rest follows from the classes as they are defined.
    fn class_wanted(&self, at: usize) -> u8 {
        match self.class_before(at) {
            judging::DUPLICATE if self.is_freed(at) && self.points(at) > 0 => judging::CREDITED,
            judging::DUPLICATE if self.is_freed(at) => judging::VOID,
            other => other,
        }
    }
}

/// Of a text that is a number; judging has its own way to read one.
fn number(text: &[u8]) -> u64 {
    std::str::from_utf8(text).ok().and_then(|text| text.parse().ok()).expect("a number")
}
