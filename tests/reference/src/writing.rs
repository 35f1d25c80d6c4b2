//! Writing a log back with its claims put right and its keywords as listed.

use crate::judging::{self, judge_log, Totals};
use crate::reading::{read, Log, Record, Refusal, Span, KEYWORDS, LONGEST_LOG};

/// One stretch of the log and what stands there afterwards.
struct Edit {
    span: Span,
    text: Vec<u8>,
}

/// Writes a log back for a caller who lends room for `out_len` bytes.
pub fn write(bytes: &[u8], out_len: usize) -> Result<Vec<u8>, Refusal> {
    let log = read(bytes)?;
    let written = write_log(&log);
    if written.len() > LONGEST_LOG || written.len() > out_len {
        return Err(Refusal::whole(8));
    }
    Ok(written)
}

/// The bytes of an accepted log written back, however many they are.
pub fn write_log(log: &Log) -> Vec<u8> {
    let (totals, verdicts) = judge_log(log);
    let mut edits = header_edits(log, &totals);
    for (record, &verdict) in log.records.iter().zip(&verdicts) {
        edits.extend(record_edits(record, verdict));
    }
    apply(log.bytes, &edits)
}

/// In the order of the keywords, since edits are applied from front to back.
fn header_edits(log: &Log, totals: &Totals) -> Vec<Edit> {
    let mut edits = Vec::new();
    for (&span, keyword) in log.keywords.iter().zip(KEYWORDS) {
        edits.push(Edit { span, text: keyword.as_bytes().to_vec() });
        edits.extend(claim_edit(log, totals, keyword));
    }
    edits
}

/// What becomes of a keyword's argument, if anything does.
fn claim_edit(log: &Log, totals: &Totals, keyword: &str) -> Option<Edit> {
    let argument = log.argument(keyword);
    let count = before_semicolon(log, argument);
    let (span, value) = match keyword {
        "CQSOs" => (count, totals.credited),
        "CQSOP" => (argument, totals.points),
        "CWWLs" => (count, totals.squares),
        "CWWLB" => (argument, totals.square_bonus),
        "CExcs" => (count, totals.exchanges),
        "CExcB" => (argument, totals.exchange_bonus),
        "CDXCs" => (count, totals.countries),
        "CDXCB" => (argument, totals.country_bonus),
        "CToSc" => (argument, totals.total),
        _ => return None,
    };
    Some(Edit { span, text: value.to_string().into_bytes() })
}

fn before_semicolon(log: &Log, span: Span) -> Span {
    let text = log.text(span);
    let length = text.iter().position(|&b| b == b';').unwrap_or(text.len());
    Span { start: span.start, end: span.start + length }
}

fn record_edits(record: &Record, verdict: u8) -> Vec<Edit> {
    let mark = |field: usize, set: bool, letter: u8| Edit {
        span: record[field - 1],
        text: if set { vec![letter] } else { Vec::new() },
    };
    let is_duplicate = judging::class(verdict) == judging::DUPLICATE;
    let mut edits = Vec::new();
    if is_duplicate {
        edits.push(Edit { span: record[10], text: b"0".to_vec() });
    }
    edits.push(mark(12, judging::has_mark(verdict, judging::NEW_EXCHANGE), b'N'));
    edits.push(mark(13, judging::has_mark(verdict, judging::NEW_SQUARE), b'N'));
    if judging::class(verdict) != judging::CREDITED {
        edits.push(mark(14, false, b'N'));
    }
    edits.push(mark(15, is_duplicate, b'D'));
    edits
}

/// Copies the bytes, putting each edit's text in the place of its span.
fn apply(bytes: &[u8], edits: &[Edit]) -> Vec<u8> {
    let mut written = Vec::with_capacity(bytes.len() + edits.len());
    let mut position = 0;
    for edit in edits {
        written.extend_from_slice(&bytes[position..edit.span.start]);
        written.extend_from_slice(&edit.text);
        position = edit.span.end;
    }
    written.extend_from_slice(&bytes[position..]);
    written
}
