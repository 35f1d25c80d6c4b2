//! The answers that crates/trials is held to are those of this judge too.
//!
//! crates/trials prints, for each log in its folder `data`, the log's name and
//! what the proved library answers. What it has to print is kept in its file
//! `stdout`, which is read here and held to the answers of the reference.

use reference::{judge, mend, read, strike, view, write, Change, Refusal, Rooms, Totals, View};
use std::collections::BTreeSet;
use std::fs;
use std::path::PathBuf;

/// The longest line of verdicts.
const VERDICTS_SHOWN: usize = 30;

/// How many changes are shown of either end of a list that is longer than two
/// such ends.
const CHANGES_SHOWN: usize = 6;

/// What the trials lend for mending: enough for every log.
const ROOMS: Rooms = Rooms { out: 65_536, kinds: 32_767, lines: 32_767 };

fn kept(path: &str) -> PathBuf {
    PathBuf::from(env!("CARGO_MANIFEST_DIR")).join("../..").join(path)
}

fn log_named(name: &str) -> Vec<u8> {
    fs::read(kept("crates/trials/data").join(name)).unwrap()
}

fn refused(label: &str, refusal: Refusal) -> String {
    format!("  {label}: refused {} {} {}\n", refusal.number, refusal.line, refusal.field)
}

fn totals_told(totals: &Totals) -> String {
    let words = [
        "credited", "voids", "duplicates", "errors", "points", "squares", "exchanges",
        "countries", "bonuses", "", "", "total",
    ];
    let mut text = String::new();
    for (word, number) in words.iter().zip(totals.as_list()) {
        text += if word.is_empty() { "" } else { " " };
        text += &format!("{word} {number}");
    }
    text
}

fn modes_told(totals: &Totals) -> String {
    totals.modes.iter().map(|number| format!(" {number}")).collect()
}

fn verdicts_told(verdicts: &[u8]) -> String {
    let shown = verdicts.iter().take(VERDICTS_SHOWN);
    let mut text: String = shown.map(|verdict| format!(" {verdict}")).collect();
    if verdicts.len() > VERDICTS_SHOWN {
        text += " ..";
    }
    text
}

fn changes_told(changes: &[Change]) -> String {
    let told = |part: &[Change]| -> String {
        part.iter().map(|change| format!(" {}:{}", change.kind, change.line)).collect()
    };
    if changes.len() <= 2 * CHANGES_SHOWN {
        return told(changes);
    }
    let (first, last) = (&changes[..CHANGES_SHOWN], &changes[changes.len() - CHANGES_SHOWN..]);
    told(first) + " .." + &told(last)
}

fn mended(log: &[u8]) -> String {
    match mend(log, ROOMS) {
        Ok(mended) => {
            let (length, changes) = (mended.text.len(), mended.changes);
            format!("  mended: length {length} changes {}{}\n", changes.len(), changes_told(&changes))
        }
        Err(refusal) => refused("mended", refusal),
    }
}

fn answers(log: &[u8]) -> String {
    let mut text = match read(log) {
        Ok(log) => format!("  read: records {} respelt {}\n", log.records.len(), log.respelt()),
        Err(refusal) => refused("read", refusal),
    };
    text += &match judge(log, 999) {
        Ok((totals, verdicts)) => {
            let (modes, verdicts) = (modes_told(&totals), verdicts_told(&verdicts));
            format!("  judged:{}\n  modes:{modes}\n  verdicts:{verdicts}\n", totals_told(&totals))
        }
        Err(refusal) => refused("judged", refusal),
    };
    text + &mended(log)
}

fn argument(log: &[u8], keyword: usize) -> String {
    match view(log, keyword) {
        Ok(View { start, length, listed }) => {
            let spelling = if listed { "listed" } else { "respelt" };
            let argument = std::str::from_utf8(&log[start..start + length]).unwrap();
            format!("  view {keyword}: start {start} length {length} {spelling} {argument}\n")
        }
        Err(refusal) => refused(&format!("view {keyword}"), refusal),
    }
}

fn written(log: &[u8], other: &str) -> String {
    match write(log, 65_536) {
        Ok(result) => {
            let like = if result == log_named(other) { "as" } else { "not as" };
            format!("  written: length {} {like} {other}\n", result.len())
        }
        Err(refusal) => refused("written", refusal),
    }
}

/// The records that two words name, each by a byte that strikes it.
fn struck_by(words: &str) -> Vec<u8> {
    let mut marks = vec![0; 999];
    for word in words.split(' ') {
        let (first, last) = word.split_once('-').unwrap_or((word, word));
        let (first, last): (usize, usize) = (first.parse().unwrap(), last.parse().unwrap());
        marks[first - 1..last].fill(1);
    }
    marks
}

fn struck(log: &[u8], words: &str, other: &str) -> String {
    match strike(log, &struck_by(words), 65_536) {
        Ok(rest) => {
            let like = if rest == log_named(other) { "as" } else { "not as" };
            format!("  struck {words}: length {} {like} {other}\n", rest.len())
        }
        Err(refusal) => refused(&format!("struck {words}"), refusal),
    }
}

/// The words that a line of striking names records by, and the log that it
/// compares with.
fn strike_of(line: &str) -> Option<(&str, &str)> {
    let (words, told) = line.strip_prefix("  struck ")?.split_once(':')?;
    Some((words, told.trim_end().rsplit(' ').next()?))
}

/// The log that a line of writing compares with.
fn other_of(line: &str) -> Option<&str> {
    line.strip_prefix("  written:")?.trim_end().rsplit(' ').next()
}

/// The keyword that a line of a view names.
fn keyword_of(line: &str) -> Option<usize> {
    let (number, _) = line.strip_prefix("  view ")?.split_once(':')?;
    number.parse().ok()
}

/// A log's name and the lines that tell of it, for each of them in turn.
fn blocks(text: &str) -> Vec<(String, String)> {
    let mut blocks: Vec<(String, String)> = Vec::new();
    for line in text.split_inclusive('\n') {
        match line.strip_prefix("  ") {
            Some(_) => blocks.last_mut().unwrap().1 += line,
            None => blocks.push((line.trim_end().to_string(), String::new())),
        }
    }
    blocks
}

#[test]
fn the_trials_are_answered_alike() {
    let text = fs::read_to_string(kept("crates/trials/stdout")).unwrap();
    for (name, told) in blocks(&text) {
        let log = log_named(&name);
        let wanted = match (keyword_of(&told), other_of(&told), strike_of(&told)) {
            (Some(keyword), _, _) => argument(&log, keyword),
            (None, Some(other), _) => written(&log, other),
            (None, None, Some((words, other))) => struck(&log, words, other),
            (None, None, None) => answers(&log),
        };
        assert_eq!(told, wanted, "{name}");
    }
}

#[test]
fn every_log_is_tried() {
    let text = fs::read_to_string(kept("crates/trials/stdout")).unwrap();
    let tried: BTreeSet<String> = blocks(&text).into_iter().map(|(name, _)| name).collect();
    let files = fs::read_dir(kept("crates/trials/data")).unwrap();
    let logs = files.map(|file| file.unwrap().file_name().into_string().unwrap()).collect();
    assert_eq!(tried, logs);
}

/// A log that stands in two places of the repository is the same in both.
#[test]
fn copies_are_the_same() {
    for (name, copy) in [
        ("12-spring.edi", "samples/spring.edi"),
        ("12-spring.edi", "crates/desk/stdin"),
        ("12-spring.edi", "crates/mend/stdout"),
        ("12-spring.edi", "crates/write/stdin"),
        ("12-written.edi", "crates/write/stdout"),
        ("12-spring.edi", "crates/view/stdin"),
        ("12-spring.edi", "crates/table/stdin"),
        ("12-spring.edi", "crates/strike/stdin"),
        ("w2-chewed.edi", "crates/mend/stdin"),
        ("w2-chewed.edi", "samples/chewed.edi"),
        ("000-list.edi", "samples/old-spelling.edi"),
        ("w3-tries.edi", "samples/second-tries.edi"),
        ("w4-morse.edi", "samples/modes.edi"),
        ("001.edi", "tests/reference/samples/region1-1995.edi"),
    ] {
        assert_eq!(log_named(name), fs::read(kept(copy)).unwrap(), "{copy}");
    }
}
