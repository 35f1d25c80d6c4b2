//! Random values that keep their rules, with a liking for the bounds.

use crate::fields::BANDS;
use crate::random::Random;

const CALL_BYTES: &[u8] = b"ABCDEFGHIJKLMNOPQRSTUVWXYZ0123456789/";

/// Calls that are easily taken for one another or for the error mark.
const CALLS_ALIKE: [&str; 14] = [
    "OZ1AA", "OZ1AA/P", "OZ1AAA", "OZ1AB", "OZ1", "DL/OZ1AA", "ERRO", "ERROR1", "ERROR/P",
    "XERROR", "RROR", "///", "000", "AAAAAAAAAAAAAA",
];

const LOCATORS_ALIKE: [&str; 10] = [
    "JO65", "JO65FR", "JO65AA", "JO65XX", "JO66", "JO66FR", "OJ65FR", "AA00", "RR99XX", "AA00AA",
];

const EXCHANGES_ALIKE: [&str; 14] = [
    "A", "A ", " A", "AA", " ", "0", "00", "000000", "ABCDEF", "ABCDE", "[]{}|~", "\x7f", "@`:<=>",
    "/",
];

/// All bytes an exchange may hold.
fn exchange_bytes() -> Vec<u8> {
    (32..=127u8).filter(|&b| b != b';' && !b.is_ascii_lowercase()).collect()
}

pub fn call(random: &mut Random) -> Vec<u8> {
    let length = match random.below(6) {
        0 => 3,
        1 => 14,
        _ => random.between(3, 14),
    };
    // The bare error mark would make another kind of record of it.
    loop {
        let call = random.string(length, CALL_BYTES);
        if call != b"ERROR" {
            return call;
        }
    }
}

pub fn call_alike(random: &mut Random) -> Vec<u8> {
    random.pick(&CALLS_ALIKE).as_bytes().to_vec()
}

pub fn short_call(random: &mut Random) -> Vec<u8> {
    let length = random.between(3, 6);
    loop {
        let call = random.string(length, CALL_BYTES);
        if call != b"ERROR" {
            return call;
        }
    }
}

pub fn empty_or_call(random: &mut Random) -> Vec<u8> {
    if random.chance(40) {
        return Vec::new();
    }
    call(random)
}

/// Nothing, or as many calls as fit a line of 75 with its keyword.
pub fn call_list(random: &mut Random) -> Vec<u8> {
    let mut list = Vec::new();
    for _ in 0..random.below(7) {
        let next = call(random);
        if list.len() + 1 + next.len() > 69 {
            break;
        }
        if !list.is_empty() {
            list.push(b';');
        }
        list.extend(next);
    }
    list
}

pub fn locator(random: &mut Random) -> Vec<u8> {
    if random.chance(50) {
        return random.pick(&LOCATORS_ALIKE).as_bytes().to_vec();
    }
    let mut text = random.string(2, b"ABCDEFGHIJKLMNOPQR");
    text.extend(random.string(2, b"0123456789"));
    if random.chance(50) {
        text.extend(random.string(2, b"ABCDEFGHIJKLMNOPQRSTUVWX"));
    }
    text
}

pub fn exchange(random: &mut Random) -> Vec<u8> {
    match random.below(10) {
        0..=2 => Vec::new(),
        3..=6 => random.pick(&EXCHANGES_ALIKE).as_bytes().to_vec(),
        _ => {
            let length = random.between(1, 6);
            random.string(length, &exchange_bytes())
        }
    }
}

pub fn band(random: &mut Random) -> Vec<u8> {
    random.pick(&BANDS).as_bytes().to_vec()
}

/// A number of 1 to `most` digits as text.
pub fn number(random: &mut Random, most: u32) -> Vec<u8> {
    let limit = 10u64.pow(most);
    let value = match random.below(8) {
        0 => 0,
        1 => 1,
        2 => limit - 1,
        3 => limit / 10,
        4 => limit / 10 - 1,
        5 => 9,
        _ => {
            let digits = random.between(1, most as usize) as u32;
            random.next() % 10u64.pow(digits)
        }
    };
    value.to_string().into_bytes()
}

pub fn multiplier(random: &mut Random) -> Vec<u8> {
    let value = match random.below(5) {
        0 | 1 => 1,
        2 => 99,
        _ => random.between(1, 99),
    };
    value.to_string().into_bytes()
}

fn month_length(year: usize, month: usize) -> usize {
    match month {
        // Within 1990 to 2089 every fourth year has a leap day.
        2 => 28 + usize::from(year % 4 == 0),
        4 | 6 | 9 | 11 => 30,
        _ => 31,
    }
}

/// A date of 1990 to 2089 as year, month and day.
fn date(random: &mut Random) -> (usize, usize, usize) {
    let year = match random.below(8) {
        0 => 1990,
        1 => 2089,
        2 => 2000,
        3 => 1999,
        4 => 1992 + 4 * random.below(25),
        _ => random.between(1990, 2089),
    };
    let month = match random.below(5) {
        0 => 1,
        1 => 12,
        2 => 2,
        _ => random.between(1, 12),
    };
    let last = month_length(year, month);
    let day = match random.below(4) {
        0 => 1,
        1 => last,
        _ => random.between(1, last),
    };
    (year, month, day)
}

pub fn short_date(random: &mut Random) -> Vec<u8> {
    let (year, month, day) = date(random);
    format!("{:02}{month:02}{day:02}", year % 100).into_bytes()
}

/// Two dates with a semicolon, the second not earlier.
pub fn date_pair(random: &mut Random) -> Vec<u8> {
    let first = date(random);
    let second = if random.chance(25) { first } else { date(random) };
    let (begin, end) = if first <= second { (first, second) } else { (second, first) };
    let text = |(year, month, day): (usize, usize, usize)| format!("{year}{month:02}{day:02}");
    format!("{};{}", text(begin), text(end)).into_bytes()
}

pub fn time(random: &mut Random) -> Vec<u8> {
    let (hour, minute) = match random.below(6) {
        0 => (0, 0),
        1 => (23, 59),
        2 => (random.below(24), 59),
        _ => (random.below(24), random.below(60)),
    };
    format!("{hour:02}{minute:02}").into_bytes()
}

pub fn report(random: &mut Random) -> Vec<u8> {
    match random.below(4) {
        0 => Vec::new(),
        1 => random.string(2, b"0123456789"),
        2 => random.string(3, b"0123456789"),
        _ => {
            let mut text = random.string(2, b"0123456789");
            text.extend(random.string(1, b"ABCDEFGHIJKLMNOPQRSTUVWXYZ"));
            text
        }
    }
}

pub fn qso_number(random: &mut Random) -> Vec<u8> {
    let length = *random.pick(&[0, 3, 4]);
    random.string(length, b"0123456789")
}

pub fn mode(random: &mut Random) -> Vec<u8> {
    let length = random.below(2);
    random.string(length, b"0123456789")
}

pub fn mark(random: &mut Random, letter: u8) -> Vec<u8> {
    if random.chance(40) {
        vec![letter]
    } else {
        Vec::new()
    }
}

/// Any allowed bytes, `most` of them or fewer.
pub fn free_text(random: &mut Random, most: usize) -> Vec<u8> {
    let length = match random.below(12) {
        0..=3 => 0,
        4 => most,
        _ => random.below(most.min(24) + 1),
    };
    let bytes: Vec<u8> = (32..=127).collect();
    random.string(length, &bytes)
}
