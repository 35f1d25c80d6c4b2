//! From bytes to an accepted log, or to the one refusal they deserve.

use crate::fields;

/// The largest log that is read or written.
pub const LONGEST_LOG: usize = 65_535;
/// The most characters a line holds before its CR LF.
pub const LONGEST_LINE: usize = 75;

/// The 36 keywords, in the order in which a log has them and in the spelling in
/// which it is written back.
pub const KEYWORDS: [&str; 36] = [
    "TName", "TDate", "PCall", "PWWLo", "PExch", "PAdr1", "PAdr2", "PSect", "PBand", "PClub",
    "RName", "RCall", "RAdr1", "RAdr2", "RPoCo", "RCity", "RCoun", "RPhon", "RHBBS", "MOpe1",
    "MOpe2", "STXEq", "SPowe", "SRXEq", "SAnte", "SAntH", "CQSOs", "CQSOP", "CWWLs", "CWWLB",
    "CExcs", "CExcB", "CDXCs", "CDXCB", "CToSc", "CODXC",
];

/// The seventeen keywords whose argument is free text.
pub const FREE: [&str; 17] = [
    "TName", "PAdr1", "PAdr2", "PSect", "RName", "RAdr1", "RAdr2", "RPoCo", "RCity", "RCoun",
    "RPhon", "RHBBS", "STXEq", "SPowe", "SRXEq", "SAnte", "SAntH",
];

pub const IDENTIFIER: &[u8] = b"[REG1TEST;1]";
pub const REMARKS_MARK: &[u8] = b"[Remarks]";
pub const COUNT_START: &[u8] = b"[QSORecords;";

/// Why a log or a request is refused.
#[derive(Clone, Copy, Debug, PartialEq, Eq, PartialOrd, Ord)]
pub struct Refusal {
    pub number: u32,
    pub line: u32,
    pub field: u32,
}

impl Refusal {
    /// A refusal that points at no line: 1, and 7 to 13, and a session's 4.
    pub fn whole(number: u32) -> Refusal {
        Refusal { number, line: 0, field: 0 }
    }

    fn at(number: u32, line: u32) -> Refusal {
        Refusal { number, line, field: 0 }
    }
}

/// A part of the log: from `start` up to, not including, `end`.
#[derive(Clone, Copy, Debug, PartialEq, Eq)]
pub struct Span {
    pub start: usize,
    pub end: usize,
}

/// The fifteen fields of a record, in their order; field 1 is at place 0.
pub type Record = [Span; 15];

/// An accepted log: its bytes and where its parts are.
#[derive(Clone, Debug)]
pub struct Log<'a> {
    pub bytes: &'a [u8],
    /// The keywords as this log spells them, without their `=`.
    pub keywords: Vec<Span>,
    /// The arguments of the keywords, all that follows each `=`.
    pub arguments: Vec<Span>,
    pub records: Vec<Record>,
}

impl<'a> Log<'a> {
    pub fn text(&self, span: Span) -> &'a [u8] {
        &self.bytes[span.start..span.end]
    }

    /// Where the argument of a keyword is; the name must be a listed one.
    pub fn argument(&self, keyword: &str) -> Span {
        let place = KEYWORDS.iter().position(|&name| name == keyword);
        self.arguments[place.expect("a listed keyword")]
    }

    /// Whether a keyword, counted from 0, stands in the listed spelling.
    pub fn is_listed(&self, place: usize) -> bool {
        self.text(self.keywords[place]) == KEYWORDS[place].as_bytes()
    }

    /// How many keywords stand in another spelling than the listed one.
    pub fn respelt(&self) -> usize {
        (0..KEYWORDS.len()).filter(|&place| !self.is_listed(place)).count()
    }
}

/// Walks over the lines of a log and counts them from 1.
struct Lines<'a> {
    bytes: &'a [u8],
    position: usize,
    /// The number of the line that is due next.
    due: u32,
}

impl<'a> Lines<'a> {
    fn at_end(&self) -> bool {
        self.position == self.bytes.len()
    }

    /// The span of the line due, without its CR LF, and its number.
    fn take(&mut self) -> Result<(Span, u32), Refusal> {
        let start = self.position;
        let mut end = start;
        while end < self.bytes.len()
            && end - start < LONGEST_LINE
            && fields::is_allowed(self.bytes[end])
        {
            end += 1;
        }
        let line = self.due;
        if !self.bytes[end..].starts_with(b"\r\n") {
            return Err(Refusal::at(2, line));
        }
        self.position = end + 2;
        self.due += 1;
        Ok((Span { start, end }, line))
    }

    fn text(&self, span: Span) -> &'a [u8] {
        &self.bytes[span.start..span.end]
    }
}

/// Reads a log whole, from its identifier to the end of its last record.
pub fn read(bytes: &[u8]) -> Result<Log<'_>, Refusal> {
    if bytes.len() > LONGEST_LOG {
        return Err(Refusal::whole(1));
    }
    read_of_any_length(bytes)
}

/// Reads a log line by line, however long it is.
pub fn read_of_any_length(bytes: &[u8]) -> Result<Log<'_>, Refusal> {
    let mut lines = Lines { bytes, position: 0, due: 1 };
    take_fixed_line(&mut lines, IDENTIFIER)?;
    let (keywords, arguments) = take_header(&mut lines)?;
    take_fixed_line(&mut lines, REMARKS_MARK)?;
    let count = take_remarks_and_count(&mut lines)?;
    let records = take_records(&mut lines, count)?;
    Ok(Log { bytes, keywords, arguments, records })
}

fn take_fixed_line(lines: &mut Lines, wanted: &[u8]) -> Result<(), Refusal> {
    let (span, line) = lines.take()?;
    if lines.text(span) == wanted {
        Ok(())
    } else {
        Err(Refusal::at(3, line))
    }
}

/// The keywords and their arguments.
fn take_header(lines: &mut Lines) -> Result<(Vec<Span>, Vec<Span>), Refusal> {
    let mut keywords = Vec::new();
    let mut arguments = Vec::new();
    for keyword in KEYWORDS {
        let (span, line) = lines.take()?;
        keyword_line(lines.text(span), keyword).map_err(|number| Refusal::at(number, line))?;
        let equals = span.start + keyword.len();
        keywords.push(Span { start: span.start, end: equals });
        arguments.push(Span { start: equals + 1, end: span.end });
    }
    Ok((keywords, arguments))
}

/// The argument of a line where this keyword is due, or the number that it is
/// refused with.
pub fn keyword_line<'a>(line: &'a [u8], keyword: &str) -> Result<&'a [u8], u32> {
    if !begins_with_keyword(line, keyword) {
        return Err(3);
    }
    let argument = &line[keyword.len() + 1..];
    if argument_holds(keyword, argument) {
        Ok(argument)
    } else {
        Err(4)
    }
}

/// Whether a line begins with this keyword, each of its letters in either
/// case, and with the `=` behind it.
fn begins_with_keyword(line: &[u8], keyword: &str) -> bool {
    let length = keyword.len();
    line.len() > length
        && line.iter().zip(keyword.bytes()).all(|(&byte, wanted)| is_same_letter(byte, wanted))
        && line[length] == b'='
}

/// Whether two bytes are the same, or one letter in its two cases. A digit has
/// no other case, and neither has anything else that is no letter.
fn is_same_letter(one: u8, other: u8) -> bool {
    one.to_ascii_lowercase() == other.to_ascii_lowercase()
}

/// Passes over the remarks; the first line that starts like a count line is
/// the count line, whatever follows on it.
fn take_remarks_and_count(lines: &mut Lines) -> Result<usize, Refusal> {
    loop {
        let (span, line) = lines.take()?;
        if let Some(count) = count_line(lines.text(span)) {
            return count.map_err(|number| Refusal::at(number, line));
        }
    }
}

/// What a line behind `[Remarks]` says of the records: nothing if it is a
/// remark, else how many there are, or the number that it is refused with.
pub fn count_line(line: &[u8]) -> Option<Result<usize, u32>> {
    let rest = line.strip_prefix(COUNT_START)?;
    Some(count_value(rest).ok_or(4))
}

fn count_value(rest: &[u8]) -> Option<usize> {
    let digits = rest.strip_suffix(b"]")?;
    // Three digits at most are exactly the counts up to 999.
    fields::number(digits, 3).map(|count| count as usize)
}

fn take_records(lines: &mut Lines, count: usize) -> Result<Vec<Record>, Refusal> {
    let mut records = Vec::new();
    for _ in 0..count {
        if lines.at_end() {
            return Err(Refusal::at(6, lines.due));
        }
        let (span, line) = lines.take()?;
        let record = split_record(lines.bytes, span)
            .map_err(|field| Refusal { number: 5, line, field })?;
        records.push(record);
    }
    if lines.at_end() {
        Ok(records)
    } else {
        Err(Refusal::at(6, lines.due))
    }
}

/// Cuts a record line into its fields, or gives the number of its first bad
/// field, 0 if there are not fifteen of them. The line may have any bytes.
pub fn split_record(bytes: &[u8], span: Span) -> Result<Record, u32> {
    let mut parts = Vec::new();
    let mut start = span.start;
    for at in (span.start..span.end).filter(|&at| bytes[at] == b';') {
        parts.push(Span { start, end: at });
        start = at + 1;
    }
    parts.push(Span { start, end: span.end });
    let record: Record = parts.try_into().map_err(|_| 0u32)?;
    let texts = record.map(|part| &bytes[part.start..part.end]);
    match (1..=15).find(|&field| !field_holds(&texts, field)) {
        None => Ok(record),
        Some(field) => Err(field as u32),
    }
}

/// Whether one field keeps its rule, given the others: the call decides what
/// the date and the points may be.
fn field_holds(texts: &[&[u8]; 15], field: usize) -> bool {
    let text = texts[field - 1];
    let is_error = texts[2] == fields::ERROR_CALL;
    match field {
        1 => fields::is_short_date(text) || (is_error && text.is_empty()),
        2 => fields::is_time(text),
        3 => fields::is_call(text),
        4 => fields::is_mode(text),
        5 | 7 => fields::is_report(text),
        6 | 8 => fields::is_qso_number(text),
        9 => fields::is_exchange(text),
        10 => fields::is_empty_or_locator(text),
        11 if is_error => text == b"0",
        11 => fields::points(text).is_some(),
        12..=14 => fields::is_mark(text, b'N'),
        15 => fields::is_mark(text, b'D'),
        _ => false,
    }
}

/// Whether an argument keeps the rule of its keyword; free ones always do.
fn argument_holds(keyword: &str, text: &[u8]) -> bool {
    let parts: Vec<&[u8]> = text.split(|&b| b == b';').collect();
    match keyword {
        "TDate" => match parts[..] {
            [first, second] => match (fields::long_date(first), fields::long_date(second)) {
                (Some(begin), Some(end)) => begin <= end,
                _ => false,
            },
            _ => false,
        },
        "PCall" => fields::is_call(text),
        "PClub" | "RCall" => fields::is_empty_or_call(text),
        "MOpe1" | "MOpe2" => fields::is_call_list(text),
        "PWWLo" => fields::is_locator(text),
        "PExch" => fields::is_exchange(text),
        "PBand" => fields::is_band(text),
        "CQSOs" => match parts[..] {
            [count, band] => {
                fields::up_to_9999(count).is_some() && fields::multiplier(band).is_some()
            }
            _ => false,
        },
        "CWWLs" | "CExcs" | "CDXCs" => match parts[..] {
            [count, bonus, multiplier] => {
                fields::up_to_9999(count).is_some()
                    && fields::up_to_9999(bonus).is_some()
                    && fields::multiplier(multiplier).is_some()
            }
            _ => false,
        },
        "CQSOP" => fields::number(text, 9).is_some(),
        "CWWLB" | "CExcB" | "CDXCB" => fields::number(text, 7).is_some(),
        "CToSc" => fields::number(text, 15).is_some(),
        "CODXC" => match parts[..] {
            [call, locator, distance] => {
                fields::is_empty_or_call(call)
                    && fields::is_empty_or_locator(locator)
                    && fields::number(distance, 6).is_some()
            }
            _ => false,
        },
        _ => true,
    }
}

/// What is told of one keyword of an accepted log.
#[derive(Clone, Copy, Debug, Default, PartialEq, Eq)]
pub struct View {
    /// Where its argument starts, and how long that is.
    pub start: usize,
    pub length: usize,
    /// Whether the keyword stands in the listed spelling.
    pub listed: bool,
}

/// The view of one keyword; they are counted from 1.
pub fn view(bytes: &[u8], keyword: usize) -> Result<View, Refusal> {
    if !(1..=KEYWORDS.len()).contains(&keyword) {
        return Err(Refusal::whole(9));
    }
    let log = read(bytes)?;
    let span = log.arguments[keyword - 1];
    let listed = log.is_listed(keyword - 1);
    Ok(View { start: span.start, length: span.end - span.start, listed })
}
