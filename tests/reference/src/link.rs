//! A link: a log whose bytes come piece by piece, judged record by record as
//! their lines are finished.
//!
//! `Link` is the struct that a caller in C lends, number by number, and what
//! each call makes of it. Nothing keeps a caller from altering it or the two
//! slices, so that every one of them has an answer here. What a line or a record
//! is, is asked of the readers and of judging.

use crate::fields;
use crate::judging::{class, has_mark, rate_of, verdict_of, Before, Entry, Rate, Rates, Totals};
use crate::judging::{CREDITED, DUPLICATE, ERROR, NEW_COUNTRY, NEW_EXCHANGE, NEW_SQUARE, VOID};
use crate::reading::{count_line, keyword_line, Refusal, IDENTIFIER, KEYWORDS, LONGEST_LINE, LONGEST_LOG, REMARKS_MARK};
use crate::session::{filled, read_line, Counts, Numbers};

/// How many bytes the struct has.
pub const LINK_BYTES: usize = 156;
/// What is kept of a record: call 14, square 4, exchange 6.
pub const WORKED_BYTES: usize = 24;

const NONE: Refusal = Refusal { number: 0, line: 0, field: 0 };
const TOO_LONG: Refusal = Refusal { number: 1, line: 0, field: 0 };
const TOO_SHORT: Refusal = Refusal { number: 7, line: 0, field: 0 };
const CLOSED: Refusal = Refusal { number: 13, line: 0, field: 0 };

/// What is due: the identifier, keyword number `stage`, `[Remarks]`, a remark or
/// the count line, and from there on records, as long as some are left.
pub const REMARKS_MARK_DUE: u16 = 37;
pub const COUNT_DUE: u16 = 38;
pub const RECORDS_DUE: u16 = 39;

/// How many bytes of each slice a call is lent.
#[derive(Clone, Copy, Debug, PartialEq, Eq)]
pub struct Lent {
    pub verdicts: usize,
    pub worked: usize,
}

impl Lent {
    /// Exactly enough for so many records.
    pub fn of(records: usize) -> Lent {
        Lent { verdicts: records, worked: records * WORKED_BYTES }
    }

    pub fn holds(self, records: usize) -> bool {
        self.verdicts >= records && self.worked >= records * WORKED_BYTES
    }
}

#[derive(Clone, Copy, Debug, PartialEq, Eq)]
pub struct Link {
    /// Number 0 while nothing is refused.
    pub refusal: Refusal,
    /// The bytes that came, and the lines that are finished.
    pub count: u32,
    pub lines: u32,
    pub points: u32,
    /// Credited, void, duplicate, error: at the place of their number.
    pub classes: [u16; 4],
    pub squares: u16,
    pub exchanges: u16,
    pub countries: u16,
    pub modes: [u16; 11],
    /// Bonus and multiplier of squares, of exchanges, and of countries.
    pub rates: [u16; 6],
    /// How many records the count line says there are, and how many were taken.
    pub records: u16,
    pub done: u16,
    pub stage: u16,
    /// The line that is not finished: how many characters of it came, whether
    /// its CR did, and they themselves.
    pub held: u16,
    pub returned: u8,
    pub line: [u8; LONGEST_LINE],
}

/// What a call of `feed` answers, and the places of the records it wrote.
#[derive(Clone, Debug, PartialEq, Eq)]
pub struct Fed {
    pub answer: Refusal,
    pub wrote: Vec<usize>,
}

/// What the caller lends to `feed`.
struct Slices<'a> {
    verdicts: &'a mut [u8],
    worked: &'a mut [u8],
    wrote: Vec<usize>,
}

impl Slices<'_> {
    fn lent(&self) -> Lent {
        Lent { verdicts: self.verdicts.len(), worked: self.worked.len() }
    }

    /// Whether an entry of the first so many has this part, filled up to its
    /// length, at this place in it.
    fn have(&self, records: usize, from: usize, part: &[u8], length: usize) -> bool {
        let part = filled(part, length);
        let mut entries = self.worked.chunks(WORKED_BYTES).take(records);
        entries.any(|entry| entry[from..from + length] == part)
    }

    fn before(&self, records: usize, entry: &Entry) -> Before {
        Before {
            call: self.have(records, 0, entry.call, 14),
            square: self.have(records, 14, entry.square, 4),
            exchange: self.have(records, 18, entry.exchange, 6),
        }
    }

    fn write(&mut self, place: usize, entry: &Entry, verdict: u8) {
        self.verdicts[place] = verdict;
        self.worked[place * WORKED_BYTES..][..WORKED_BYTES].copy_from_slice(&worked_of(entry, verdict));
        self.wrote.push(place);
    }
}

/// What is kept of a record that has this verdict.
pub fn worked_of(entry: &Entry, verdict: u8) -> Vec<u8> {
    if class(verdict) != CREDITED {
        return vec![0; WORKED_BYTES];
    }
    [filled(entry.call, 14), filled(entry.square, 4), filled(entry.exchange, 6)].concat()
}

/// Grows by one, and begins again at zero where it runs over.
fn grow(number: &mut u16) {
    *number = number.wrapping_add(1);
}

impl Link {
    /// A link that was just opened: every number is zero.
    pub const OPENED: Link = Link {
        refusal: NONE,
        count: 0,
        lines: 0,
        points: 0,
        classes: [0; 4],
        squares: 0,
        exchanges: 0,
        countries: 0,
        modes: [0; 11],
        rates: [0; 6],
        records: 0,
        done: 0,
        stage: 0,
        held: 0,
        returned: 0,
        line: [0; LONGEST_LINE],
    };

    pub fn feed(&mut self, piece: &[u8], verdicts: &mut [u8], worked: &mut [u8]) -> Fed {
        let mut slices = Slices { verdicts, worked, wrote: Vec::new() };
        if self.refusal.number == 0 {
            let lent = slices.lent();
            let taken = self.admit(lent).and_then(|()| self.take_piece(piece, &mut slices));
            self.keep(taken);
        }
        Fed { answer: self.refusal, wrote: slices.wrote }
    }

    pub fn close(&mut self, lent: Lent) -> (Refusal, Totals) {
        if self.refusal.number == 0 {
            if let Err(refusal) = self.admit(lent).and_then(|()| self.end()) {
                self.stop(refusal);
            } else {
                let totals = self.totals();
                self.stop(CLOSED);
                return (NONE, totals);
            }
        }
        (self.refusal, Totals::default())
    }

    /// A refusal is kept, and nothing else is.
    fn stop(&mut self, refusal: Refusal) {
        *self = Link { refusal, ..Link::OPENED };
    }

    fn keep(&mut self, taken: Result<(), Refusal>) {
        if let Err(refusal) = taken {
            self.stop(refusal);
        }
    }

    /// A refusal at the line that is due.
    fn due(&self, number: u32, field: u32) -> Refusal {
        Refusal { number, line: self.lines + 1, field }
    }

    fn records_are_due(&self) -> bool {
        self.stage >= RECORDS_DUE && self.done < self.records
    }

    fn end_is_due(&self) -> bool {
        self.stage >= RECORDS_DUE && self.done >= self.records
    }

    fn is_inside_a_line(&self) -> bool {
        self.held != 0 || self.returned != 0
    }

    /// What is asked before any byte is taken.
    fn admit(&self, lent: Lent) -> Result<(), Refusal> {
        let longest = LONGEST_LOG as u32;
        if self.count > longest || self.lines > self.count || usize::from(self.held) > LONGEST_LINE {
            return Err(CLOSED);
        }
        if self.stage >= RECORDS_DUE && !lent.holds(self.records.into()) {
            return Err(TOO_SHORT);
        }
        Ok(())
    }

    fn take_piece(&mut self, piece: &[u8], slices: &mut Slices) -> Result<(), Refusal> {
        let room = LONGEST_LOG - self.count as usize;
        let (front, beyond) = piece.split_at(piece.len().min(room));
        self.count += front.len() as u32;
        front.iter().try_for_each(|&byte| self.take_byte(byte, slices))?;
        if beyond.is_empty() {
            Ok(())
        } else {
            Err(TOO_LONG)
        }
    }

    fn take_byte(&mut self, byte: u8, slices: &mut Slices) -> Result<(), Refusal> {
        if self.end_is_due() {
            return Err(self.due(6, 0));
        }
        let held = usize::from(self.held);
        match byte {
            b'\n' if self.returned != 0 => return self.finish_line(slices),
            _ if self.returned != 0 => return Err(self.due(2, 0)),
            b'\r' => self.returned = 1,
            _ if fields::is_allowed(byte) && held < LONGEST_LINE => {
                self.line[held] = byte;
                self.held += 1;
            }
            _ => return Err(self.due(2, 0)),
        }
        Ok(())
    }

    fn finish_line(&mut self, slices: &mut Slices) -> Result<(), Refusal> {
        let line = self.line[..self.held.into()].to_vec();
        if self.records_are_due() {
            self.take_record(&line, slices)?;
        } else {
            self.take_head_line(&line).map_err(|number| self.due(number, 0))?;
            if self.stage == RECORDS_DUE && !slices.lent().holds(self.records.into()) {
                return Err(TOO_SHORT);
            }
        }
        self.lines += 1;
        self.held = 0;
        self.returned = 0;
        self.line = [0; LONGEST_LINE];
        Ok(())
    }

    /// A line in front of the records, or the number that it is refused with.
    fn take_head_line(&mut self, line: &[u8]) -> Result<(), u32> {
        match self.stage {
            0 if line != IDENTIFIER => return Err(3),
            REMARKS_MARK_DUE if line != REMARKS_MARK => return Err(3),
            0 | REMARKS_MARK_DUE => self.stage += 1,
            COUNT_DUE => {
                if let Some(count) = count_line(line) {
                    self.records = count? as u16;
                    self.done = 0;
                    self.stage = RECORDS_DUE;
                }
            }
            stage => {
                let keyword = KEYWORDS[usize::from(stage) - 1];
                let argument = keyword_line(line, keyword)?;
                match keyword {
                    "CWWLs" => self.declare(0, rate_of(argument)),
                    "CExcs" => self.declare(2, rate_of(argument)),
                    "CDXCs" => self.declare(4, rate_of(argument)),
                    _ => {}
                }
                self.stage += 1;
            }
        }
        Ok(())
    }

    fn declare(&mut self, place: usize, rate: Rate) {
        self.rates[place] = rate.bonus as u16;
        self.rates[place + 1] = rate.multiplier as u16;
    }

    /// Judges a record by what the slices have of those before it.
    fn take_record(&mut self, line: &[u8], slices: &mut Slices) -> Result<(), Refusal> {
        let record = read_line(line).map_err(|refusal| self.due(refusal.number, refusal.field))?;
        let entry = Entry::of(line, &record);
        let place = usize::from(self.done);
        let verdict = verdict_of(&entry, slices.before(place, &entry));
        slices.write(place, &entry, verdict);
        self.done += 1;
        self.add(&entry, verdict);
        Ok(())
    }

    fn add(&mut self, entry: &Entry, verdict: u8) {
        grow(&mut self.classes[usize::from(class(verdict))]);
        if class(verdict) != CREDITED {
            return;
        }
        self.points = self.points.wrapping_add(entry.points as u32);
        let mode = fields::MODES.iter().position(|name| name.as_bytes() == entry.mode);
        grow(&mut self.modes[mode.expect("a mode was read")]);
        for (mark, number) in
            [(NEW_SQUARE, &mut self.squares), (NEW_EXCHANGE, &mut self.exchanges), (NEW_COUNTRY, &mut self.countries)]
        {
            if has_mark(verdict, mark) {
                grow(number);
            }
        }
    }

    /// What is said where no more bytes come.
    fn end(&self) -> Result<(), Refusal> {
        match (self.end_is_due(), self.records_are_due(), self.is_inside_a_line()) {
            (true, _, false) => Ok(()),
            (true, _, true) | (_, true, false) => Err(self.due(6, 0)),
            _ => Err(self.due(2, 0)),
        }
    }

    /// A struct whose numbers no run of calls can have made has zero totals, as
    /// such a session has.
    fn totals(&self) -> Totals {
        let count = |class: u8| u64::from(self.classes[usize::from(class)]);
        let rate = |place: usize| Rate { bonus: self.rates[place].into(), multiplier: self.rates[place + 1].into() };
        let counts = Counts {
            credited: count(CREDITED),
            voids: count(VOID),
            duplicates: count(DUPLICATE),
            errors: count(ERROR),
            points: self.points.into(),
            squares: self.squares.into(),
            exchanges: self.exchanges.into(),
            countries: self.countries.into(),
            modes: self.modes.map(u64::from),
        };
        Numbers { rates: Rates { squares: rate(0), exchanges: rate(2), countries: rate(4) }, counts }.totals()
    }

    /// The numbers of two bytes, in the order of the struct.
    fn narrow(&self) -> Vec<u16> {
        let sums = self.classes.into_iter().chain([self.squares, self.exchanges, self.countries]).chain(self.modes);
        sums.chain(self.rates).chain([self.records, self.done, self.stage, self.held]).collect()
    }

    /// As it lies in a caller's memory.
    pub fn as_bytes(&self) -> [u8; LINK_BYTES] {
        let Refusal { number, line, field } = self.refusal;
        let wide = [number, line, field, self.count, self.lines, self.points];
        let mut bytes: Vec<u8> = wide.into_iter().flat_map(u32::to_le_bytes).collect();
        bytes.extend(self.narrow().into_iter().flat_map(u16::to_le_bytes));
        bytes.push(self.returned);
        bytes.extend(self.line);
        bytes.try_into().expect("so many bytes")
    }

    pub fn from_bytes(bytes: [u8; LINK_BYTES]) -> Link {
        let mut at = 0;
        let mut next = |length: usize| {
            at += length;
            bytes[at - length..at].iter().rev().fold(0, |number, &byte| number << 8 | u32::from(byte))
        };
        let refusal = Refusal { number: next(4), line: next(4), field: next(4) };
        let [count, lines, points] = [0; 3].map(|_: u32| next(4));
        let mut narrow = || next(2) as u16;
        Link {
            refusal,
            count,
            lines,
            points,
            classes: [0; 4].map(|_: u16| narrow()),
            squares: narrow(),
            exchanges: narrow(),
            countries: narrow(),
            modes: [0; 11].map(|_: u16| narrow()),
            rates: [0; 6].map(|_: u16| narrow()),
            records: narrow(),
            done: narrow(),
            stage: narrow(),
            held: narrow(),
            returned: next(1) as u8,
            line: [0; LONGEST_LINE].map(|_: u8| next(1) as u8),
        }
    }
}
