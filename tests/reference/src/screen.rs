//! What the desk's verbs `table`, `write` and `strike` put on standard output
//! and on standard error, as README.md and docs/DECISIONS.md (44 to 48) have it.

use crate::judging::{self, judge_log};
use crate::reading::{read, Log, Refusal, LONGEST_LOG};
use crate::striking::strike_log;
use crate::writing;
use std::collections::{BTreeMap, BTreeSet};

/// All that a verb puts on the two.
#[derive(Clone, Debug, Default, PartialEq, Eq)]
pub struct Screen {
    pub output: Vec<u8>,
    pub error: Vec<u8>,
}

impl Screen {
    fn answered(output: Vec<u8>) -> Screen {
        Screen { output, error: Vec::new() }
    }

    fn said(error: String) -> Screen {
        Screen { output: Vec::new(), error: error.into_bytes() }
    }

    fn refused(refusal: Refusal) -> Screen {
        Screen::said(format!("REFUSED {} {} {}\n", refusal.number, refusal.line, refusal.field))
    }
}

/// A line for each record of a log.
pub fn table(bytes: &[u8]) -> Screen {
    match read(bytes) {
        Ok(log) => Screen::answered(table_of(&log).into_bytes()),
        Err(refusal) => Screen::refused(refusal),
    }
}

/// The log written back.
pub fn write(bytes: &[u8]) -> Screen {
    match writing::write(bytes, LONGEST_LOG) {
        Ok(written) => Screen::answered(written),
        Err(refusal) => Screen::refused(refusal),
    }
}

/// What is left without the records of these numbers, written back, and a line
/// for each strike. Whoever names a record that is not there meant another one,
/// so that nothing is struck then.
pub fn strike(bytes: &[u8], named: &BTreeSet<usize>) -> Screen {
    let log = match read(bytes) {
        Ok(log) => log,
        Err(refusal) => return Screen::refused(refusal),
    };
    let records = log.records.len();
    if let Some(missing) = named.iter().find(|&&number| number > records) {
        return Screen::said(format!("desk: there is no record {missing}: the log has {records}\n"));
    }
    let written = write(&without(&log, named));
    if !written.error.is_empty() {
        return written;
    }
    Screen { output: written.output, error: report(&log, named).into_bytes() }
}

fn class_word(class: u8) -> &'static str {
    match class {
        judging::CREDITED => "credited",
        judging::VOID => "void",
        judging::DUPLICATE => "duplicate",
        judging::ERROR => "error",
        _ => panic!("there is no class {class}"),
    }
}

/// A field of a record, both counted from 1.
fn field(log: &Log, number: usize, field: usize) -> String {
    String::from_utf8(log.text(log.records[number - 1][field - 1]).to_vec()).expect("what is accepted is ASCII")
}

fn table_of(log: &Log) -> String {
    let (_, verdicts) = judge_log(log);
    (1..).zip(verdicts).map(|(number, verdict)| table_line(log, number, verdict)).collect()
}

/// Time, call and points as they are claimed; class and marks as they are judged.
fn table_line(log: &Log, number: usize, verdict: u8) -> String {
    let (time, call, points) = (field(log, number, 2), field(log, number, 3), field(log, number, 11));
    let class = class_word(judging::class(verdict));
    let line = format!("{number:>3}  {time}  {call:<14}  {points:>6}  {class:<9}  {}", news(verdict));
    line.trim_end().to_string() + "\n"
}

/// What is new by a record.
fn news(verdict: u8) -> String {
    let kinds = [
        (judging::NEW_EXCHANGE, "new exchange"),
        (judging::NEW_SQUARE, "new square"),
        (judging::NEW_COUNTRY, "new country"),
    ];
    let new: Vec<&str> = kinds.iter().filter(|kind| judging::has_mark(verdict, kind.0)).map(|kind| kind.1).collect();
    new.join(", ")
}

fn without(log: &Log, gone: &BTreeSet<usize>) -> Vec<u8> {
    let struck: Vec<bool> = (1..=log.records.len()).map(|number| gone.contains(&number)).collect();
    strike_log(log, &struck)
}

/// What judging a log without some of its records comes to: the total, and the
/// class of each record that is left, by the number that it has in the whole log.
struct Standing {
    total: u64,
    classes: BTreeMap<usize, u8>,
}

fn standing(log: &Log, gone: &BTreeSet<usize>) -> Standing {
    let rest = without(log, gone);
    let rest = read(&rest).expect("a struck log is accepted");
    let (totals, verdicts) = judge_log(&rest);
    let left = (1..=log.records.len()).filter(|number| !gone.contains(number));
    let classes = left.zip(verdicts.into_iter().map(judging::class)).collect();
    Standing { total: totals.total, classes }
}

/// The strikes in the order of the records, each with those above it done. Every
/// such log is judged by itself, so that no line rests on another.
fn report(log: &Log, named: &BTreeSet<usize>) -> String {
    let mut text = String::new();
    for &number in named {
        let above: BTreeSet<usize> = named.range(..number).copied().collect();
        let done: BTreeSet<usize> = named.range(..=number).copied().collect();
        text += &report_line(log, number, &standing(log, &above), &standing(log, &done));
    }
    text
}

fn report_line(log: &Log, number: usize, before: &Standing, after: &Standing) -> String {
    let class = class_word(before.classes[&number]);
    let mut line = format!("{number} {} {class}, {} points: struck", field(log, number, 3), field(log, number, 11));
    for (&other, &class) in after.classes.iter().filter(|&(other, class)| before.classes[other] != *class) {
        line += &format!("; {other} {} becomes {}", field(log, other, 3), class_word(class));
    }
    line + &format!("; TOTAL {} -> {}\n", before.total, after.total)
}
