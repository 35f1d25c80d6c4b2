//! Logs in the making: their parts kept apart until they are put together.

use crate::random::Random;
use crate::reading::{KEYWORDS, LONGEST_LOG, REMARKS_MARK};
use crate::values;

/// A log before it is put together. Every part is plain text, so that a part
/// can be broken as easily as made.
#[derive(Clone)]
pub struct Draft {
    /// The keywords as they are spelt in this log.
    pub keywords: Vec<Vec<u8>>,
    pub header: Vec<Vec<u8>>,
    pub remarks: Vec<Vec<u8>>,
    pub records: Vec<[Vec<u8>; 15]>,
}

/// What sort of log is wanted.
#[derive(Clone, Copy)]
pub struct Wish {
    pub records: usize,
    /// How many different calls there are to work.
    pub calls: usize,
    /// Records no longer than 59 characters, so that 999 fit any log.
    pub compact: bool,
}

/// Places in the list of lines, counted from 0.
pub const FIRST_KEYWORD: usize = 1;
pub const REMARKS_LINE: usize = 37;
pub const FIRST_REMARK: usize = 38;

const ODD_REMARKS: [&str; 28] = [
    "", "", "[QSORecords", "[QSORecords]", "[QSORecords:3]", " [QSORecords;3]", "[qsorecords;3]",
    "[QSORECORDS;3]", "[QSORecords ;3]", "QSORecords;3]", "[QSORecord;2]", "x[QSORecords;2]",
    "[Remarks]", "[REG1TEST;1]", "TName=again", "CToSc=12", ";", ";;;;;;;;;;;;;;", "\x7f", " ",
    "240302;1401;DK1AA;1;59;001;59;004;;JO40AA;120;;N;N;", "[", "[Remarks;1]",
    "240302;1410;ERROR;;;003;;;;;0;;;;", "[qSORecords;3]", "[QSORecordS;3]", "{QSORecords;3]", "tnAME=again",
];

impl Draft {
    pub fn count_line(&self) -> usize {
        FIRST_REMARK + self.remarks.len()
    }

    pub fn first_record(&self) -> usize {
        self.count_line() + 1
    }

    /// The lines of the log without their ends.
    pub fn lines(&self) -> Vec<Vec<u8>> {
        let mut lines = vec![b"[REG1TEST;1]".to_vec()];
        for (keyword, argument) in self.keywords.iter().zip(&self.header) {
            lines.push([keyword, &b"="[..], argument].concat());
        }
        lines.push(REMARKS_MARK.to_vec());
        lines.extend(self.remarks.iter().cloned());
        lines.push(format!("[QSORecords;{}]", self.records.len()).into_bytes());
        lines.extend(self.records.iter().map(|record| record.join(&b';')));
        lines
    }

    pub fn bytes(&self) -> Vec<u8> {
        join(&self.lines())
    }

    pub fn set(&mut self, keyword: &str, argument: &[u8]) {
        let place = KEYWORDS.iter().position(|&name| name == keyword);
        self.header[place.expect("a listed keyword")] = argument.to_vec();
    }

    /// Adds remarks so that the log grows by `more` bytes, which must not be 1.
    pub fn pad(&mut self, random: &mut Random, mut more: usize) {
        let bytes: Vec<u8> = (b' '..=127).filter(|&b| b != b'[').collect();
        while more > 0 {
            // A line takes 2 to 77 bytes, and a single byte must never remain.
            let line = match more {
                2..=77 => more,
                78 => 39,
                _ => 77,
            };
            self.remarks.push(random.string(line - 2, &bytes));
            more -= line;
        }
    }
}

pub fn join(lines: &[Vec<u8>]) -> Vec<u8> {
    let mut bytes = Vec::new();
    for line in lines {
        bytes.extend_from_slice(line);
        bytes.extend_from_slice(b"\r\n");
    }
    bytes
}

pub fn header_argument(random: &mut Random, keyword: &str) -> Vec<u8> {
    match keyword {
        "TDate" => values::date_pair(random),
        "PCall" => values::call(random),
        "PClub" | "RCall" => values::empty_or_call(random),
        "MOpe1" | "MOpe2" => values::call_list(random),
        "PWWLo" => values::locator(random),
        "PExch" => values::exchange(random),
        "PBand" => values::band(random),
        "CQSOs" => [values::number(random, 4), values::multiplier(random)].join(&b';'),
        "CWWLs" | "CExcs" | "CDXCs" => [
            values::number(random, 4),
            values::number(random, 4),
            values::multiplier(random),
        ]
        .join(&b';'),
        "CQSOP" => values::number(random, 9),
        "CWWLB" | "CExcB" | "CDXCB" => values::number(random, 7),
        "CToSc" => values::number(random, 15),
        "CODXC" => {
            let call = values::empty_or_call(random);
            let square = if random.chance(40) { Vec::new() } else { values::locator(random) };
            [call, square, values::number(random, 6)].join(&b';')
        }
        _ => values::free_text(random, 75 - 6),
    }
}

pub fn remark(random: &mut Random) -> Vec<u8> {
    if random.chance(50) {
        return random.pick(&ODD_REMARKS).as_bytes().to_vec();
    }
    let text = values::free_text(random, 75);
    // A random text that happened to begin a count line would end the remarks.
    if text.starts_with(b"[QSORecords;") {
        return Vec::new();
    }
    text
}

pub fn remarks(random: &mut Random) -> Vec<Vec<u8>> {
    let count = match random.below(4) {
        0 => 0,
        1 => 1,
        _ => random.below(9),
    };
    (0..count).map(|_| remark(random)).collect()
}

/// A record that is neither an error nor void.
pub fn plain_record(random: &mut Random, call: &[u8], compact: bool) -> [Vec<u8>; 15] {
    let keep = |text: Vec<u8>, most: usize| if text.len() > most { Vec::new() } else { text };
    let (report, number, exchange) = if compact { (2, 3, 2) } else { (3, 4, 6) };
    let points = loop {
        let text = values::number(random, 6);
        if text != b"0" {
            break text;
        }
    };
    let square = if random.chance(30) { Vec::new() } else { values::locator(random) };
    [
        values::short_date(random),
        values::time(random),
        call.to_vec(),
        values::mode(random),
        keep(values::report(random), report),
        keep(values::qso_number(random), number),
        keep(values::report(random), report),
        keep(values::qso_number(random), number),
        keep(values::exchange(random), exchange),
        square,
        points,
        values::mark(random, b'N'),
        values::mark(random, b'N'),
        values::mark(random, b'N'),
        values::mark(random, b'D'),
    ]
}

/// Turns a record into an error record, at times without its date and more.
pub fn make_error(random: &mut Random, record: &mut [Vec<u8>; 15]) {
    record[2] = b"ERROR".to_vec();
    record[10] = b"0".to_vec();
    if random.chance(50) {
        record[0].clear();
    }
    if random.chance(40) {
        for field in [3, 4, 6, 7, 8, 9, 11, 12, 13, 14] {
            record[field].clear();
        }
    }
}

fn records(random: &mut Random, wish: Wish) -> Vec<[Vec<u8>; 15]> {
    let calls: Vec<Vec<u8>> = (0..wish.calls.max(1))
        .map(|_| {
            if wish.compact {
                values::short_call(random)
            } else if random.chance(40) {
                values::call_alike(random)
            } else {
                values::call(random)
            }
        })
        .collect();
    let errors = *random.pick(&[0, 5, 10, 50]);
    let voids = *random.pick(&[0, 10, 20, 60]);
    (0..wish.records)
        .map(|_| {
            let call = random.pick(&calls).clone();
            let mut record = plain_record(random, &call, wish.compact);
            if random.chance(errors) {
                make_error(random, &mut record);
            } else if random.chance(voids) {
                record[10] = b"0".to_vec();
            }
            record
        })
        .collect()
}

/// The spellings that differ by case alone in the format's printing of 1995.
pub const OLD_SPELLINGS: [(&str, &str); 5] = [
    ("PExch", "PEXch"),
    ("SAntH", "SAnth"),
    ("CQSOs", "CQSOS"),
    ("CExcs", "CEXcs"),
    ("CExcB", "CEXcB"),
];

pub fn listed_keywords() -> Vec<Vec<u8>> {
    KEYWORDS.iter().map(|name| name.as_bytes().to_vec()).collect()
}

pub fn old_keywords() -> Vec<Vec<u8>> {
    let old = |name: &str| OLD_SPELLINGS.iter().find(|pair| pair.0 == name).map(|pair| pair.1);
    KEYWORDS.iter().map(|name| old(name).unwrap_or(name).as_bytes().to_vec()).collect()
}

/// Turns one letter of a keyword into its other case.
pub fn turn_a_letter(random: &mut Random, keyword: &mut [u8]) {
    let letters: Vec<usize> = (0..keyword.len()).filter(|&at| keyword[at].is_ascii_alphabetic()).collect();
    let at = *random.pick(&letters);
    keyword[at] = other_case(keyword[at]);
}

/// Each letter in either case, as chance has it.
pub fn mix(random: &mut Random, keyword: &mut [u8]) {
    for byte in keyword {
        if random.chance(50) {
            *byte = other_case(*byte);
        }
    }
}

fn other_case(byte: u8) -> u8 {
    if byte.is_ascii_lowercase() { byte.to_ascii_uppercase() } else { byte.to_ascii_lowercase() }
}

/// Keywords in some spelling that is read: mostly the listed one.
fn keywords(random: &mut Random) -> Vec<Vec<u8>> {
    let mut keywords = listed_keywords();
    match random.below(10) {
        0 => {
            let chosen = random.below(keywords.len());
            turn_a_letter(random, &mut keywords[chosen]);
        }
        1 => {
            for keyword in &mut keywords {
                if random.chance(30) {
                    mix(random, keyword);
                }
            }
        }
        2 => keywords = old_keywords(),
        _ => {}
    }
    keywords
}

/// A log that keeps every rule. Where records are not compact there must be at
/// most 700 of them, or the log might be too long.
pub fn draft(random: &mut Random, wish: Wish) -> Draft {
    let header = KEYWORDS.iter().map(|name| header_argument(random, name)).collect();
    let draft = Draft { keywords: keywords(random), header, remarks: remarks(random), records: records(random, wish) };
    debug_assert!(draft.bytes().len() <= LONGEST_LOG);
    draft
}

/// A few records of a few calls.
pub fn small(random: &mut Random) -> Draft {
    let records = random.below(13);
    let calls = random.between(1, 12);
    draft(random, Wish { records, calls, compact: false })
}

/// As `small`, with at least one record and one remark.
pub fn small_with_all_parts(random: &mut Random) -> Draft {
    let records = random.between(1, 8);
    let calls = random.between(1, 8);
    let mut made = draft(random, Wish { records, calls, compact: false });
    if made.remarks.is_empty() {
        made.remarks.push(remark(random));
    }
    made
}
