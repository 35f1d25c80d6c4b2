//! What the mender does to logs, told case by case.

use reference::mending::{mend_text, COUNT_SET, LAST_LINE_ENDED, RETURN_PUT, SPACES_DROPPED};
use reference::reading::LONGEST_LOG;
use reference::{mend, read, Change, Mended, Refusal, Rooms};
use std::fs;
use std::path::PathBuf;

const PLENTY: Rooms = Rooms { out: 70_000, kinds: 70_000, lines: 70_000 };

/// The places of two lines of the sample, counted from 1.
const MARK_LINE: u32 = 38;
const COUNT_LINE: u32 = 39;
const LAST_LINE: u32 = 44;

fn sample(name: &str) -> String {
    let path = PathBuf::from(env!("CARGO_MANIFEST_DIR")).join("../../samples").join(name);
    fs::read_to_string(path).unwrap()
}

/// A log with five records and no remarks.
fn spring() -> String {
    sample("spring.edi")
}

fn mended(log: &str) -> Result<Mended, Refusal> {
    mend(log.as_bytes(), PLENTY)
}

fn refusal(number: u32, line: u32, field: u32) -> Refusal {
    Refusal { number, line, field }
}

fn changes(list: &[(u8, u32)]) -> Vec<Change> {
    list.iter().map(|&(kind, line)| Change { kind, line }).collect()
}

/// What a text becomes, read or not.
fn text_of(text: &str) -> String {
    String::from_utf8(mend_text(text.as_bytes()).text).unwrap()
}

fn changes_of(text: &str) -> Vec<Change> {
    mend_text(text.as_bytes()).changes
}

/// The log becomes the sample again, and this is told of it.
fn restored(log: &str, list: &[(u8, u32)]) {
    let done = mended(log).unwrap();
    assert_eq!(String::from_utf8(done.text).unwrap(), spring());
    assert_eq!(done.changes, changes(list));
}

#[test]
fn an_accepted_log_is_left_alone() {
    restored(&spring(), &[]);
    let none = Rooms { out: spring().len(), kinds: 0, lines: 0 };
    assert_eq!(mend(spring().as_bytes(), none).unwrap().text, spring().into_bytes());
}

#[test]
fn returns_are_put() {
    let every: Vec<(u8, u32)> = (1..=LAST_LINE).map(|line| (RETURN_PUT, line)).collect();
    restored(&spring().replace('\r', ""), &every);
    restored(&spring().replacen('\r', "", 1), &[(RETURN_PUT, 1)]);
    restored(&spring().replace("[Remarks]\r\n", "[Remarks]\n"), &[(RETURN_PUT, MARK_LINE)]);
}

#[test]
fn only_the_byte_before_a_line_feed_is_its_return() {
    assert_eq!(text_of("\n"), "\r\n");
    assert_eq!(text_of("\n\n"), "\r\n\r\n");
    assert_eq!(text_of("\r\r\n"), "\r\r\n");
    assert_eq!(text_of("\n\r"), "\r\n\r\n");
    assert_eq!(text_of("a\rb\nc\r \n"), "a\rb\r\nc\r \r\n");
    assert_eq!(changes_of("\r\r\n"), []);
    assert_eq!(changes_of("\n\r"), changes(&[(RETURN_PUT, 1), (LAST_LINE_ENDED, 2)]));
    let twice = spring().replacen("\r\n", "\r\r\n", 3);
    assert_eq!(mended(&twice), Err(refusal(2, 1, 0)));
}

#[test]
fn the_last_line_is_ended() {
    let log = spring();
    restored(log.strip_suffix("\r\n").unwrap(), &[(LAST_LINE_ENDED, LAST_LINE)]);
    restored(log.strip_suffix("\n").unwrap(), &[(LAST_LINE_ENDED, LAST_LINE)]);
    assert_eq!(text_of("\r"), "\r\n");
    assert_eq!(changes_of("\r"), changes(&[(LAST_LINE_ENDED, 1)]));
    assert_eq!(text_of("a\r\r"), "a\r\r\n");
    assert_eq!(text_of(""), "");
    assert_eq!(changes_of(""), []);
    assert_eq!(mended(""), Err(refusal(2, 1, 0)));
}

#[test]
fn a_return_behind_the_last_line_is_a_line() {
    let log = spring() + "\r";
    let done = mend_text(log.as_bytes());
    let wanted = spring().replace(";5]", ";6]") + "\r\n";
    assert_eq!(String::from_utf8(done.text).unwrap(), wanted);
    assert_eq!(done.changes, changes(&[(COUNT_SET, COUNT_LINE), (LAST_LINE_ENDED, LAST_LINE + 1)]));
    assert_eq!(mended(&log), Err(refusal(5, LAST_LINE + 1, 0)));
}

#[test]
fn spaces_are_dropped_from_record_lines() {
    let log = spring();
    restored(&log.replace("0;;;;\r\n", "0;;;;  \r\n"), &[(SPACES_DROPPED, 42), (SPACES_DROPPED, 43), (SPACES_DROPPED, 44)]);
    let long = " ".repeat(500);
    restored(&log.replace(";N;N;\r\n", &format!(";N;N;{long}\r\n")), &[(SPACES_DROPPED, 40)]);
    // Before CR LF alone, and nothing but spaces.
    let tab = log.replace(";N;N;\r\n", ";N;N;\t\r\n");
    assert_eq!(mended(&tab), Err(refusal(2, 40, 0)));
    let hidden = log.replace(";N;N;\r\n", ";N;N; \r\r\n");
    assert_eq!(mended(&hidden), Err(refusal(2, 40, 0)));
    assert_eq!(mend_text(hidden.as_bytes()).changes, []);
}

#[test]
fn spaces_elsewhere_stay() {
    let log = spring();
    for (line, spaced, answer) in [
        ("[REG1TEST;1]\r\n", "[REG1TEST;1] \r\n", refusal(3, 1, 0)),
        ("PCall=OZ1FDJ\r\n", "PCall=OZ1FDJ \r\n", refusal(4, 4, 0)),
        ("[Remarks]\r\n", "[Remarks] \r\n", refusal(3, MARK_LINE, 0)),
        ("[QSORecords;5]\r\n", "[QSORecords;5] \r\n", refusal(4, COUNT_LINE, 0)),
    ] {
        let spaced = log.replace(line, spaced);
        assert_ne!(spaced, log);
        assert_eq!(mended(&spaced), Err(answer));
        assert_eq!(mend_text(spaced.as_bytes()).changes, []);
    }
    let remark = log.replace("[Remarks]\r\n", "[Remarks]\r\na remark  \r\n");
    assert_eq!(mended(&remark).unwrap(), Mended { text: remark.into_bytes(), changes: vec![] });
}

#[test]
fn a_line_of_spaces_becomes_empty_and_counts() {
    let log = spring() + "   \r\n";
    assert_eq!(changes_of(&log), changes(&[(COUNT_SET, COUNT_LINE), (SPACES_DROPPED, LAST_LINE + 1)]));
    assert_eq!(text_of(&log), spring().replace(";5]", ";6]") + "\r\n");
    assert_eq!(mended(&log), Err(refusal(5, LAST_LINE + 1, 0)));
}

#[test]
fn the_count_is_set() {
    let log = spring();
    let long = "9".repeat(100);
    for count in ["0", "4", "6", "05", "005", "50", "1000", "18446744073709551621", &long, &"0".repeat(200)] {
        restored(&log.replace(";5]", &format!(";{count}]")), &[(COUNT_SET, COUNT_LINE)]);
    }
    let lines: Vec<&str> = log.split_inclusive('\n').collect();
    let none = lines[..39].concat();
    assert_eq!(text_of(&none), none.replace(";5]", ";0]"));
    assert!(mended(&none).is_ok());
}

#[test]
fn a_count_with_something_else_stays() {
    let log = spring();
    for bad in ["]", "", "5", "5] ", "5]x", "5]]", " 5]", "5 ]", "+5]", "-5]", "5;]", "x]", "5.0]", "5]\r"] {
        let broken = log.replace("5]\r\n24", &format!("{bad}\r\n24"));
        assert_ne!(broken, log);
        let number = if bad.ends_with('\r') { 2 } else { 4 };
        assert_eq!(mended(&broken), Err(refusal(number, COUNT_LINE, 0)), "{bad:?}");
        assert_eq!(mend_text(broken.as_bytes()).changes, [], "{bad:?}");
    }
    // Spaces are dropped all the same.
    let broken = log.replace(";5]", ";]").replace(";N;N;\r\n", ";N;N; \r\n");
    assert_eq!(text_of(&broken), log.replace(";5]", ";]"));
    assert_eq!(changes_of(&broken), changes(&[(SPACES_DROPPED, 40)]));
}

#[test]
fn the_first_count_line_behind_the_mark_counts() {
    let log = spring();
    let early = "[QSORecords;7]\r\n".to_string() + &log;
    assert_eq!(text_of(&early), early);
    let two = log.replace("[QSORecords;5]\r\n", "[QSORecords;5]\r\n[QSORecords;5]  \r\n");
    assert_eq!(text_of(&two), log.replace("[QSORecords;5]\r\n", "[QSORecords;6]\r\n[QSORecords;5]\r\n"));
    assert_eq!(changes_of(&two), changes(&[(COUNT_SET, COUNT_LINE), (SPACES_DROPPED, COUNT_LINE + 1)]));
}

#[test]
fn without_the_mark_only_ends_are_mended() {
    let log = spring().replace("[Remarks]\r\n", "[remarks]\n").replace(";5]", ";4]").replace(";N;N;\r\n", ";N;N; \r\n");
    assert_eq!(text_of(&log), log.replace("[remarks]\n", "[remarks]\r\n"));
    assert_eq!(changes_of(&log), changes(&[(RETURN_PUT, MARK_LINE)]));
    assert_eq!(mended(&log), Err(refusal(3, MARK_LINE, 0)));
    let open = "[Remarks";
    assert_eq!(text_of(open), "[Remarks\r\n");
}

#[test]
fn the_mark_is_looked_for_in_mended_lines() {
    for mark in ["[Remarks]\n", "[Remarks]\r\n"] {
        let text = format!("x\r\n{mark}[QSORecords;9]\r\na \r\nb");
        assert_eq!(text_of(&text), "x\r\n[Remarks]\r\n[QSORecords;2]\r\na\r\nb\r\n");
    }
    for last in ["[Remarks]", "[Remarks]\r"] {
        assert_eq!(text_of(last), "[Remarks]\r\n");
    }
    assert_eq!(text_of("[Remarks]\r\r\n[QSORecords;9]\r\n"), "[Remarks]\r\r\n[QSORecords;9]\r\n");
    // The first of two lines is the one.
    let twice = "[Remarks]\r\n[QSORecords;9]\r\n[Remarks]\r\n[QSORecords;9]\r\n";
    assert_eq!(text_of(twice), "[Remarks]\r\n[QSORecords;2]\r\n[Remarks]\r\n[QSORecords;9]\r\n");
    let behind = "[QSORecords;9]\r\n[Remarks]\r\n";
    assert_eq!(text_of(behind), behind);
}

#[test]
fn the_list_goes_by_line_and_then_by_kind() {
    let log = spring();
    let chewed = log.replace('\r', "").replace(";5]", ";17]").replace("0;;;;\n", "0;;;; \n");
    let chewed = chewed.strip_suffix('\n').unwrap();
    let mut wanted: Vec<(u8, u32)> = (1..=39).map(|line| (RETURN_PUT, line)).collect();
    wanted.push((COUNT_SET, 39));
    wanted.extend([(RETURN_PUT, 40), (RETURN_PUT, 41)]);
    wanted.extend([(RETURN_PUT, 42), (SPACES_DROPPED, 42), (RETURN_PUT, 43), (SPACES_DROPPED, 43)]);
    wanted.extend([(LAST_LINE_ENDED, 44), (SPACES_DROPPED, 44)]);
    restored(chewed, &wanted);
    // The count line as the last one.
    let text = "[Remarks]\n[QSORecords;00]";
    assert_eq!(changes_of(text), changes(&[(RETURN_PUT, 1), (LAST_LINE_ENDED, 2), (COUNT_SET, 2)]));
}

#[test]
fn the_chewed_sample_is_mended() {
    let mut wanted: Vec<(u8, u32)> = (1..=43).map(|line| (RETURN_PUT, line)).collect();
    wanted.extend([(COUNT_SET, 39), (SPACES_DROPPED, 43), (LAST_LINE_ENDED, 44)]);
    wanted.sort_by_key(|&(kind, line)| (line, kind));
    restored(&sample("chewed.edi"), &wanted);
}

#[test]
fn rooms_are_looked_at_last_and_the_list_first() {
    let chewed = spring().replace('\r', "");
    let chewed = chewed.as_bytes();
    let (length, count) = (spring().len(), LAST_LINE as usize);
    let with = |out, kinds, lines| mend(chewed, Rooms { out, kinds, lines }).err();
    assert_eq!(with(length, count, count), None);
    assert_eq!(with(length - 1, count, count), Some(refusal(8, 0, 0)));
    assert_eq!(with(length, count - 1, count), Some(refusal(10, 0, 0)));
    assert_eq!(with(length, count, count - 1), Some(refusal(10, 0, 0)));
    assert_eq!(with(0, count, 0), Some(refusal(10, 0, 0)));
    assert_eq!(with(0, 0, 0), Some(refusal(10, 0, 0)));
    let none = Rooms { out: 0, kinds: 0, lines: 0 };
    assert_eq!(mend(spring().as_bytes(), none), Err(refusal(8, 0, 0)));
    assert_eq!(mend(b"x", none), Err(refusal(3, 1, 0)));
}

/// The sample with remarks, all ended by LF alone, that is `length` bytes long
/// once it is mended.
fn padded(length: usize) -> String {
    let (head, records) = spring().split_once("[QSORecords;").map(|(a, b)| (a.to_string(), b.to_string())).unwrap();
    let mut more = length - spring().len();
    let mut remarks = String::new();
    while more > 0 {
        let line = if more < 150 { more.min(75) } else { 77 };
        remarks += &("x".repeat(line - 2) + "\n");
        more -= line;
    }
    format!("{head}{remarks}[QSORecords;{records}")
}

#[test]
fn the_limit_holds_before_and_after() {
    let most = padded(LONGEST_LOG);
    assert!(most.len() < LONGEST_LOG);
    assert_eq!(mended(&most).unwrap().text.len(), LONGEST_LOG);
    let over = padded(LONGEST_LOG + 1);
    assert!(over.len() < LONGEST_LOG);
    assert_eq!(mended(&over), Err(refusal(1, 0, 0)));
    // A log that is too long is not mended, even where it would become short.
    let spaced = |length: usize| spring().replace(";N;N;\r\n", &format!(";N;N;{}\r\n", " ".repeat(length - spring().len())));
    restored(&spaced(LONGEST_LOG), &[(SPACES_DROPPED, 40)]);
    assert_eq!(mended(&spaced(LONGEST_LOG + 1)), Err(refusal(1, 0, 0)));
}

#[test]
fn a_thousand_lines_behind_the_count_line_are_too_many() {
    let (head, _) = spring().split_once("[QSORecords;").map(|(a, b)| (a.to_string(), b.to_string())).unwrap();
    let records = |count: usize| format!("{head}[QSORecords;5]\r\n{}", "240302;1401;DK1AA;;;;;;;;1;;;;\n".repeat(count));
    assert_eq!(read(&mended(&records(999)).unwrap().text).unwrap().records.len(), 999);
    assert_eq!(mended(&records(1000)), Err(refusal(4, COUNT_LINE, 0)));
}
