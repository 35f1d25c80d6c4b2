//! Mending a log that was spoilt on its way, and telling what was done to it.
//!
//! A line ends at its LF here, and only the last one can lack it. The four
//! things are done one after the other, each to the whole log.

use crate::reading::{read, Refusal, COUNT_START, LONGEST_LOG, REMARKS_MARK};

/// Kinds of changes, in the order in which they are done.
pub const RETURN_PUT: u8 = 1;
pub const LAST_LINE_ENDED: u8 = 2;
pub const SPACES_DROPPED: u8 = 3;
pub const COUNT_SET: u8 = 4;

/// A thing that was changed, and in which line; lines are counted from 1.
#[derive(Clone, Copy, Debug, PartialEq, Eq)]
pub struct Change {
    pub kind: u8,
    pub line: u32,
}

/// A log after mending, whether or not it can now be read.
#[derive(Clone, Debug, PartialEq, Eq)]
pub struct Mended {
    pub text: Vec<u8>,
    pub changes: Vec<Change>,
}

/// How much a caller lends: bytes for the mended log, and places for the kinds
/// and for the lines of what was changed.
#[derive(Clone, Copy, Debug, PartialEq, Eq)]
pub struct Rooms {
    pub out: usize,
    pub kinds: usize,
    pub lines: usize,
}

/// Mends a log for a caller who lends these rooms.
pub fn mend(bytes: &[u8], rooms: Rooms) -> Result<Mended, Refusal> {
    if bytes.len() > LONGEST_LOG {
        return Err(Refusal::whole(1));
    }
    let mended = mend_text(bytes);
    read(&mended.text)?;
    let changes = mended.changes.len();
    if rooms.kinds < changes || rooms.lines < changes {
        return Err(Refusal::whole(10));
    }
    if rooms.out < mended.text.len() {
        return Err(Refusal::whole(8));
    }
    Ok(mended)
}

/// The lines of a log in the making, each with its end, and what was changed.
struct Mender {
    lines: Vec<Vec<u8>>,
    changes: Vec<Change>,
}

/// Does the four things to a text, however long it is.
pub fn mend_text(bytes: &[u8]) -> Mended {
    let lines = bytes.split_inclusive(|&b| b == b'\n').map(<[u8]>::to_vec).collect();
    let mut mender = Mender { lines, changes: Vec::new() };
    mender.put_returns();
    mender.end_last_line();
    if let Some(count) = mender.count_line() {
        mender.drop_spaces(count);
        mender.set_count(count);
    }
    // Each thing was noted when it was done; the list goes by lines.
    mender.changes.sort_by_key(|change| (change.line, change.kind));
    Mended { text: mender.lines.concat(), changes: mender.changes }
}

impl Mender {
    fn note(&mut self, kind: u8, place: usize) {
        self.changes.push(Change { kind, line: place as u32 + 1 });
    }

    fn put_returns(&mut self) {
        for place in 0..self.lines.len() {
            let line = &mut self.lines[place];
            if line.ends_with(b"\n") && !line.ends_with(b"\r\n") {
                line.insert(line.len() - 1, b'\r');
                self.note(RETURN_PUT, place);
            }
        }
    }

    /// A last line without LF has bytes, or it would not be there.
    fn end_last_line(&mut self) {
        let Some(line) = self.lines.last_mut() else { return };
        if line.ends_with(b"\n") {
            return;
        }
        let end: &[u8] = if line.ends_with(b"\r") { b"\n" } else { b"\r\n" };
        line.extend_from_slice(end);
        self.note(LAST_LINE_ENDED, self.lines.len() - 1);
    }

    /// The place of the line that tells how many records there are: the first
    /// that begins so behind the first line `[Remarks]`.
    fn count_line(&self) -> Option<usize> {
        let mark = self.lines.iter().position(|line| without_end(line) == REMARKS_MARK)?;
        let behind = mark + 1;
        let count = self.lines[behind..].iter().position(|line| line.starts_with(COUNT_START))?;
        Some(behind + count)
    }

    /// Of the lines behind the count line.
    fn drop_spaces(&mut self, count: usize) {
        for place in count + 1..self.lines.len() {
            let mut text = without_end(&self.lines[place]).to_vec();
            let length = text.len();
            while text.ends_with(b" ") {
                text.pop();
            }
            if text.len() < length {
                self.lines[place] = [&text, &b"\r\n"[..]].concat();
                self.note(SPACES_DROPPED, place);
            }
        }
    }

    fn set_count(&mut self, count: usize) {
        let follow = self.lines.len() - count - 1;
        let wanted = [COUNT_START, follow.to_string().as_bytes(), b"]\r\n"].concat();
        if has_digits(&self.lines[count]) && self.lines[count] != wanted {
            self.lines[count] = wanted;
            self.note(COUNT_SET, count);
        }
    }
}

/// A line that has its CR LF, without it.
fn without_end(line: &[u8]) -> &[u8] {
    line.strip_suffix(b"\r\n").expect("every line is ended by now")
}

/// Whether a count line has one or more digits and nothing else in its place.
fn has_digits(line: &[u8]) -> bool {
    let number = without_end(line).strip_prefix(COUNT_START).and_then(|rest| rest.strip_suffix(b"]"));
    number.is_some_and(|number| !number.is_empty() && number.iter().all(u8::is_ascii_digit))
}
