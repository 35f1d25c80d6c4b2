//! The rules for single values: calls, locators, numbers, dates and so on.
//!
//! Every function here looks at one value alone and knows nothing of lines.

/// The fifteen band names; a PBand has to be one of them as a whole.
pub const BANDS: [&str; 15] = [
    "50 MHz", "70 MHz", "144 MHz", "432 MHz", "1,3 GHz", "2,3 GHz", "3,4 GHz", "5,7 GHz",
    "10 GHz", "24 GHz", "47 GHz", "76 GHz", "120 GHz", "144 GHz", "248 GHz",
];

/// The word in the call field that marks a mistaken record.
pub const ERROR_CALL: &[u8] = b"ERROR";

/// Bytes that may stand in a line.
pub fn is_allowed(byte: u8) -> bool {
    (32..=127).contains(&byte)
}

fn all_digits(text: &[u8]) -> bool {
    text.iter().all(u8::is_ascii_digit)
}

pub fn is_call(text: &[u8]) -> bool {
    (3..=14).contains(&text.len())
        && text
            .iter()
            .all(|&b| b.is_ascii_uppercase() || b.is_ascii_digit() || b == b'/')
}

pub fn is_empty_or_call(text: &[u8]) -> bool {
    text.is_empty() || is_call(text)
}

/// Empty, or one call after another with a semicolon between.
pub fn is_call_list(text: &[u8]) -> bool {
    text.is_empty() || text.split(|&b| b == b';').all(is_call)
}

pub fn is_locator(text: &[u8]) -> bool {
    if text.len() != 4 && text.len() != 6 {
        return false;
    }
    let field = text[..2].iter().all(|b| (b'A'..=b'R').contains(b));
    let square = all_digits(&text[2..4]);
    let inner = text[4..].iter().all(|b| (b'A'..=b'X').contains(b));
    field && square && inner
}

pub fn is_empty_or_locator(text: &[u8]) -> bool {
    text.is_empty() || is_locator(text)
}

pub fn is_exchange(text: &[u8]) -> bool {
    text.len() <= 6
        && text
            .iter()
            .all(|&b| is_allowed(b) && b != b';' && !b.is_ascii_lowercase())
}

pub fn is_band(text: &[u8]) -> bool {
    BANDS.iter().any(|name| name.as_bytes() == text)
}

/// A number of 1 to `most` digits, without a leading zero but for `0` itself.
/// `most` is never above 15, so the value always fits.
pub fn number(text: &[u8], most: usize) -> Option<u64> {
    if text.is_empty() || text.len() > most || !all_digits(text) {
        return None;
    }
    if text.len() > 1 && text[0] == b'0' {
        return None;
    }
    Some(digits_value(text))
}

/// A claimed count or a bonus: 0 to 9,999.
pub fn up_to_9999(text: &[u8]) -> Option<u64> {
    number(text, 4)
}

/// A multiplier: 1 to 99.
pub fn multiplier(text: &[u8]) -> Option<u64> {
    number(text, 2).filter(|&value| value >= 1)
}

/// The value of a run of digits, leading zeros allowed.
fn digits_value(text: &[u8]) -> u64 {
    text.iter().fold(0, |sum, &b| sum * 10 + u64::from(b - b'0'))
}

fn is_leap_year(year: u64) -> bool {
    (year % 4 == 0 && year % 100 != 0) || year % 400 == 0
}

fn days_in_month(year: u64, month: u64) -> u64 {
    match month {
        1 | 3 | 5 | 7 | 8 | 10 | 12 => 31,
        4 | 6 | 9 | 11 => 30,
        2 if is_leap_year(year) => 29,
        2 => 28,
        _ => 0,
    }
}

fn is_day(year: u64, month: u64, day: u64) -> bool {
    day >= 1 && day <= days_in_month(year, month)
}

/// A date YYYYMMDD of the years 1990 to 2089, as its eight digits' value, so
/// that a later date is a larger number.
pub fn long_date(text: &[u8]) -> Option<u64> {
    if text.len() != 8 || !all_digits(text) {
        return None;
    }
    let year = digits_value(&text[..4]);
    let month = digits_value(&text[4..6]);
    let day = digits_value(&text[6..]);
    let good = (1990..=2089).contains(&year) && is_day(year, month, day);
    good.then(|| digits_value(text))
}

/// A date YYMMDD: 90 to 99 are of the 1990s, the rest of the years from 2000.
pub fn is_short_date(text: &[u8]) -> bool {
    if text.len() != 6 || !all_digits(text) {
        return false;
    }
    let short = digits_value(&text[..2]);
    let year = if short >= 90 { 1900 + short } else { 2000 + short };
    is_day(year, digits_value(&text[2..4]), digits_value(&text[4..]))
}

pub fn is_time(text: &[u8]) -> bool {
    text.len() == 4
        && all_digits(text)
        && digits_value(&text[..2]) <= 23
        && digits_value(&text[2..]) <= 59
}

pub fn is_mode(text: &[u8]) -> bool {
    text.len() <= 1 && all_digits(text)
}

/// What a mode can be: the codes 0 to 9, and then blank.
pub const MODES: [&str; 11] = ["0", "1", "2", "3", "4", "5", "6", "7", "8", "9", ""];

pub fn is_report(text: &[u8]) -> bool {
    match text.len() {
        0 => true,
        2 => all_digits(text),
        3 => all_digits(&text[..2]) && (text[2].is_ascii_digit() || text[2].is_ascii_uppercase()),
        _ => false,
    }
}

pub fn is_qso_number(text: &[u8]) -> bool {
    matches!(text.len(), 0 | 3 | 4) && all_digits(text)
}

pub fn points(text: &[u8]) -> Option<u64> {
    number(text, 6)
}

/// A mark is left out or is the one letter given.
pub fn is_mark(text: &[u8], letter: u8) -> bool {
    text.is_empty() || text == [letter]
}
