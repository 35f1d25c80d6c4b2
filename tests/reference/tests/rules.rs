//! Every rule at its bounds: the last value inside and the first outside.

use reference::reading::{read, FREE, KEYWORDS};
use reference::{desk, judge, view, write, Refusal, Totals};

const GOOD: [&str; 36] = [
    "Contest", "20240302;20240303", "OZ9ZZ", "JO65FR", "", "", "", "", "144 MHz", "", "", "", "", "", "", "", "", "",
    "", "", "", "", "", "", "", "", "0;1", "0", "0;0;1", "0", "0;0;1", "0", "0;0;1", "0", "0", ";;0",
];

const RECORD: [&str; 15] =
    ["240302", "1401", "DK1AA", "1", "59", "001", "59", "004", "", "JO40AA", "120", "", "N", "N", ""];

struct Parts {
    header: Vec<String>,
    remarks: Vec<String>,
    count: String,
    records: Vec<String>,
}

impl Parts {
    fn new(records: &[&str]) -> Parts {
        Parts {
            header: KEYWORDS.iter().zip(GOOD).map(|(name, value)| format!("{name}={value}")).collect(),
            remarks: Vec::new(),
            count: format!("[QSORecords;{}]", records.len()),
            records: records.iter().map(|record| record.to_string()).collect(),
        }
    }

    fn bytes(&self) -> Vec<u8> {
        let mut text = String::from("[REG1TEST;1]\r\n");
        let lines = self.header.iter();
        let mark = "[Remarks]".to_string();
        let lines = lines.chain([&mark]).chain(&self.remarks).chain([&self.count]).chain(&self.records);
        lines.for_each(|line| text.push_str(&format!("{line}\r\n")));
        text.into_bytes()
    }
}

fn refusal(number: u32, line: u32, field: u32) -> Option<Refusal> {
    Some(Refusal { number, line, field })
}

fn place(keyword: &str) -> usize {
    KEYWORDS.iter().position(|&name| name == keyword).unwrap()
}

fn with_argument(keyword: &str, value: &str) -> Option<Refusal> {
    let mut parts = Parts::new(&[]);
    parts.header[place(keyword)] = format!("{keyword}={value}");
    read(&parts.bytes()).err()
}

fn arguments(keyword: &str, good: &[&str], bad: &[&str]) {
    for value in good {
        assert_eq!(with_argument(keyword, value), None, "{keyword}={value}");
    }
    for value in bad {
        let wanted = refusal(4, place(keyword) as u32 + 2, 0);
        assert_eq!(with_argument(keyword, value), wanted, "{keyword}={value}");
    }
}

fn with_field(record: [&str; 15], field: usize, value: &str) -> Option<Refusal> {
    let mut record = record;
    record[field - 1] = value;
    read(&Parts::new(&[&record.join(";")]).bytes()).err()
}

fn fields(field: usize, good: &[&str], bad: &[&str]) {
    for value in good {
        assert_eq!(with_field(RECORD, field, value), None, "field {field} {value:?}");
    }
    for value in bad {
        assert_eq!(with_field(RECORD, field, value), refusal(5, 40, field as u32), "field {field} {value:?}");
    }
}

#[test]
fn seventeen_free_and_nineteen_forced() {
    assert_eq!(KEYWORDS.len() - FREE.len(), 19);
    for keyword in FREE {
        arguments(keyword, &["", ";;;", "a\x7f = [", &"x".repeat(69)], &[]);
    }
}

#[test]
fn contest_dates() {
    arguments(
        "TDate",
        &["19900101;20891231", "20240229;20240229", "20000229;20000301", "19991231;20000101"],
        &[
            "19891231;20240101", "20891231;20900101", "20230229;20240101", "20240302", "20240302;", "20240303;20240302",
            "20240302;20240303;20240304", "20240302;;20240303", "240302;240303", "20241301;20250101", "",
        ],
    );
}

#[test]
fn calls() {
    let fourteen = "ABCDEFGHIJKLMN";
    let fifteen = "ABCDEFGHIJKLMNO";
    arguments("PCall", &["A1/", "ERROR", fourteen], &["", "A1", fifteen, "a1b", "A 1", "A-1", "OZ1AA;OZ1BB"]);
    for keyword in ["PClub", "RCall"] {
        arguments(keyword, &["", "A1/", fourteen], &["A1", fifteen, "a1b", "OZ1AA;OZ1BB"]);
    }
    for keyword in ["MOpe1", "MOpe2"] {
        let good = ["", "A1/", fourteen, "OZ1AA;OZ1BB", "OZ1AA;OZ1AA;OZ1AA"];
        arguments(keyword, &good, &["A1", fifteen, ";", "OZ1AA;", ";OZ1AA", "OZ1AA;;OZ1BB", "OZ1AA; OZ1BB"]);
    }
}

#[test]
fn locator_and_exchange() {
    let bad = ["", "JO", "JO6", "JO65F", "JO65FR1", "SO65", "JS65", "JO65YA", "JO65AY", "jo65", "JO65fr", "JOAA"];
    arguments("PWWLo", &["AA00", "RR99", "AA00AA", "RR99XX"], &bad);
    arguments("PExch", &["", " ", "ABCDEF", "\x7f{`[@", "      "], &["ABCDEFG", "A;B", "a", "z", "ABCDEz"]);
}

#[test]
fn bands() {
    let good = [
        "50 MHz", "70 MHz", "144 MHz", "432 MHz", "1,3 GHz", "2,3 GHz", "3,4 GHz", "5,7 GHz", "10 GHz", "24 GHz",
        "47 GHz", "76 GHz", "120 GHz", "144 GHz", "248 GHz",
    ];
    arguments("PBand", &good, &["", "145 MHz", "50 GHz", "1.3 GHz", "144 MH", "144 MHz ", "44 MHz"]);
}

#[test]
fn claims() {
    let bad = ["10000;1", "0;0", "0;100", "00;1", "0;01", "0", "0;1;1", ";1", "0;", "0;;1", "-1;1", ""];
    arguments("CQSOs", &["0;1", "9999;99"], &bad);
    for keyword in ["CWWLs", "CExcs", "CDXCs"] {
        let bad = [
            "10000;0;1", "0;10000;1", "0;0;0", "0;0;100", "01;0;1", "0;01;1", "0;0;01", "0;0", "0;0;1;1", "0;;1",
            "0;0;;1", ";;", "",
        ];
        arguments(keyword, &["0;0;1", "9999;9999;99"], &bad);
    }
    arguments("CQSOP", &["0", "999999999"], &["1000000000", "", "00", "01", "1;"]);
    for keyword in ["CWWLB", "CExcB", "CDXCB"] {
        arguments(keyword, &["0", "9999999"], &["10000000", "", "00", "01", " 1"]);
    }
    arguments("CToSc", &["0", "999999999999999"], &["1000000000000000", "", "00", "01", "1 "]);
    arguments(
        "CODXC",
        &[";;0", "OY9;;1", ";IP62;1", "ABCDEFGHIJKLMN;IP62OA;999999"],
        &["", ";;", ";0", ";;;0", "OY;;0", ";IP6;0", ";IP620A;0", ";;1000000", ";;00"],
    );
}

#[test]
fn record_fields() {
    fields(1, &["900101", "991231", "000229", "891231", "240229"], &["", "230229", "240431", "240001", "241301", "240100", "24030", "2403020"]);
    fields(2, &["0000", "2359", "0059"], &["", "2400", "1260", "0060", "140", "14010", "1 01"]);
    fields(3, &["A1/", "ABCDEFGHIJKLMN", "///", "ERROR1", "ERRO"], &["", "A1", "ABCDEFGHIJKLMNO", "dk1aa", "DK 1"]);
    fields(4, &["", "0", "9"], &["00", "A", " "]);
    for field in [5, 7] {
        fields(field, &["", "00", "99", "599", "59A", "59Z", "000"], &["5", "5999", "5A", "59a", "59/", "A59"]);
    }
    for field in [6, 8] {
        fields(field, &["", "000", "999", "0000", "9999"], &["1", "01", "00001", "00A", " 01"]);
    }
    fields(9, &["", " ", "ABCDEF", "\x7f"], &["ABCDEFG", "a", "z"]);
    fields(10, &["", "AA00", "RR99XX"], &["JS65", "SJ65", "JO65Y", "JO65YA", "JO65FR0", "jo65"]);
    fields(11, &["0", "1", "999999"], &["", "007", "00", "1000000", "-1", "1 "]);
    for field in [12, 13, 14] {
        fields(field, &["", "N"], &["n", "D", "NN", " "]);
    }
    fields(15, &["", "D"], &["d", "N", "DD", " "]);
}

#[test]
fn error_records() {
    let error = ["", "1401", "ERROR", "", "", "", "", "", "", "", "0", "", "", "", ""];
    assert_eq!(with_field(error, 1, ""), None);
    assert_eq!(with_field(error, 1, "240302"), None);
    assert_eq!(with_field(error, 1, "230229"), refusal(5, 40, 1));
    assert_eq!(with_field(error, 2, ""), refusal(5, 40, 2));
    assert_eq!(with_field(error, 11, "1"), refusal(5, 40, 11));
    assert_eq!(with_field(error, 11, ""), refusal(5, 40, 11));
    // Without the mark the date is due, whatever else is wrong.
    assert_eq!(with_field(error, 3, "ERROR/P"), refusal(5, 40, 1));
    assert_eq!(with_field(error, 3, ""), refusal(5, 40, 1));
}

#[test]
fn semicolons_come_first() {
    let few = RECORD.join(";").replacen(';', "", 1);
    assert_eq!(read(&Parts::new(&[&few]).bytes()).err(), refusal(5, 40, 0));
    let many = RECORD.join(";") + ";";
    assert_eq!(read(&Parts::new(&[&many]).bytes()).err(), refusal(5, 40, 0));
    assert_eq!(read(&Parts::new(&[""]).bytes()).err(), refusal(5, 40, 0));
    assert_eq!(read(&Parts::new(&[";;;;;;;;;;;;;;"]).bytes()).err(), refusal(5, 40, 1));
}

#[test]
fn the_longest_record_fits_a_line() {
    let record = "891231;2359;ABCDEFGHIJKLMN;9;59A;9999;59A;9999;ABCDEF;RR99XX;999999;N;N;N;D";
    assert_eq!(record.len(), 75);
    assert!(read(&Parts::new(&[record]).bytes()).is_ok());
}

#[test]
fn count_lines() {
    let with_count = |count: &str| {
        let mut parts = Parts::new(&[]);
        parts.count = count.to_string();
        read(&parts.bytes()).err()
    };
    assert_eq!(with_count("[QSORecords;0]"), None);
    assert_eq!(with_count("[QSORecords;999]"), refusal(6, 40, 0));
    for bad in ["1000]", "00]", "01]", "]", "", "0", "0] ", "0]]", " 0]", "-0]", "0;]", "4294967296]"] {
        assert_eq!(with_count(&format!("[QSORecords;{bad}")), refusal(4, 39, 0), "{bad:?}");
    }
    // A line that does not begin like a count line is a remark.
    for remark in ["[QSORecords", "[QSORecords]", "[qsorecords;0]", " [QSORecords;0]"] {
        assert_eq!(with_count(remark), refusal(2, 40, 0), "{remark:?}");
    }
}

#[test]
fn remarks_of_every_look() {
    let mut parts = Parts::new(&[]);
    parts.remarks = ["[Remarks]", "", "[QSORecords", "TName=x", "\x7f"].map(String::from).to_vec();
    assert!(read(&parts.bytes()).is_ok());
    parts.remarks.push("[QSORecords;0]".to_string());
    assert_eq!(read(&parts.bytes()).err(), refusal(6, 45, 0));
}

#[test]
fn line_ends_and_bytes() {
    let good = Parts::new(&[&RECORD.join(";")]).bytes();
    let text = String::from_utf8(good.clone()).unwrap();
    let lines: Vec<&str> = text.split_inclusive("\r\n").collect();
    for (at, line) in lines.iter().enumerate() {
        for end in ["\n", "\r", "", "\n\r", "\r\r\n", " \r \n", "\x1f\r\n", "\t\r\n", "\u{80}\r\n"] {
            let body = line.trim_end_matches("\r\n");
            let log = [lines[..at].concat(), format!("{body}{end}"), lines[at + 1..].concat()].concat();
            // Two lines run together are long enough or else misspelt.
            if !end.is_empty() || at + 1 == lines.len() {
                assert_eq!(read(log.as_bytes()).err(), refusal(2, at as u32 + 1, 0), "line {at} {end:?}");
            }
        }
    }
}

#[test]
fn every_cut_is_refused() {
    let good = Parts::new(&[&RECORD.join(";"), &RECORD.join(";")]).bytes();
    for length in 0..good.len() {
        let whole_lines = good[..length].windows(2).filter(|pair| pair == b"\r\n").count() as u32;
        let at_line_start = length == 0 || good[..length].ends_with(b"\r\n");
        let number = if at_line_start && whole_lines >= 39 { 6 } else { 2 };
        assert_eq!(read(&good[..length]).err(), refusal(number, whole_lines + 1, 0), "{length}");
    }
}

#[test]
fn bytes_after_the_last_line() {
    for records in [vec![], vec![RECORD.join(";")]] {
        let records: Vec<&str> = records.iter().map(String::as_str).collect();
        for extra in [0, 10, 13, 26, b'x', 255] {
            let mut log = Parts::new(&records).bytes();
            log.push(extra);
            assert_eq!(read(&log).err(), refusal(6, 40 + records.len() as u32, 0));
        }
    }
}

#[test]
fn keywords_misspelt() {
    for (at, keyword) in KEYWORDS.iter().enumerate() {
        let value = GOOD[at];
        let wrong = [
            format!("{keyword}{value}"),
            format!("{keyword} ={value}"),
            format!(" {keyword}={value}"),
            format!("{keyword}:{value}"),
            keyword.to_string(),
            String::new(),
        ];
        for line in wrong {
            let mut parts = Parts::new(&[]);
            parts.header[at] = line.clone();
            assert_eq!(read(&parts.bytes()).err(), refusal(3, at as u32 + 2, 0), "{line}");
        }
    }
}

/// A log with one line of its header, counted from 0, put as given.
fn with_header_line(at: usize, line: &[u8]) -> Vec<u8> {
    let before = Parts::new(&[]).bytes();
    let text = format!("\r\n{}={}\r\n", KEYWORDS[at], GOOD[at]).into_bytes();
    let start = before.windows(text.len()).position(|part| part == text).unwrap() + 2;
    [&before[..start], line, &before[start + text.len() - 4..]].concat()
}

/// The answer to each byte in each place of each keyword and in that of its
/// `=`: the listed byte and, of a letter, the other case are read.
#[test]
fn every_byte_of_every_keyword() {
    for (at, keyword) in KEYWORDS.iter().enumerate() {
        let line = format!("{keyword}={}", GOOD[at]).into_bytes();
        for place in 0..=keyword.len() {
            for byte in 0..=255u8 {
                let listed = line[place];
                let other = match listed {
                    b'A'..=b'Z' => Some(listed + 32),
                    b'a'..=b'z' => Some(listed - 32),
                    _ => None,
                };
                let mut line = line.clone();
                line[place] = byte;
                let log = with_header_line(at, &line);
                let answer = read(&log).map(|log| log.respelt());
                let number = if (32..=127).contains(&byte) { 3 } else { 2 };
                let wanted = if byte == listed {
                    Ok(0)
                } else if other == Some(byte) {
                    Ok(1)
                } else {
                    Err(Refusal { number, line: at as u32 + 2, field: 0 })
                };
                assert_eq!(answer, wanted, "{keyword} place {place} byte {byte}");
                assert_eq!(view(&log, at + 1).map(|seen| seen.listed), wanted.map(|respelt| respelt == 0));
            }
        }
    }
}

/// Of two keywords none is the other in another case, so no line is ever read
/// as another than the one due.
#[test]
fn keywords_differ_by_more_than_case() {
    for (at, one) in KEYWORDS.iter().enumerate() {
        for other in &KEYWORDS[at + 1..] {
            assert_ne!(one.to_lowercase(), other.to_lowercase());
        }
    }
}

fn spelt(change: fn(&str) -> String) -> Parts {
    let mut parts = Parts::new(&[&RECORD.join(";")]);
    parts.header = KEYWORDS.iter().zip(GOOD).map(|(name, value)| format!("{}={value}", change(name))).collect();
    parts
}

#[test]
fn whole_logs_in_one_case() {
    let listed = spelt(str::to_string).bytes();
    assert_eq!(read(&listed).unwrap().respelt(), 0);
    let small = spelt(str::to_lowercase).bytes();
    assert_eq!(read(&small).unwrap().respelt(), 36);
    // RHBBS, CQSOP, CWWLB, CDXCB and CODXC are listed in capitals.
    let capital = spelt(str::to_uppercase).bytes();
    assert_eq!(read(&capital).unwrap().respelt(), 31);
    for log in [small, capital] {
        assert_eq!(judge(&log, 1), judge(&listed, 1));
        assert_eq!(write(&log, 65_535), write(&listed, 65_535));
        assert_eq!(write(&log, 65_535).unwrap().len(), write(&listed, 65_535).unwrap().len());
    }
}

/// The lines that are no keyword's, letter by letter in their other case.
#[test]
fn other_lines_are_read_as_they_are() {
    let lines = [("[REG1TEST;1]", Some(refusal(3, 1, 0))), ("[Remarks]", Some(refusal(3, 38, 0))), ("[QSORecords;", None)];
    for (line, wanted) in lines {
        let text = String::from_utf8(Parts::new(&[]).bytes()).unwrap();
        let start = text.find(line).unwrap();
        for at in (start..start + line.len()).filter(|&at| text.as_bytes()[at] >= b'A') {
            let mut log = text.clone().into_bytes();
            log[at] ^= 32;
            // Where the count line is not read as one it is a remark, and a
            // line is due behind it.
            assert_eq!(read(&log).err(), wanted.unwrap_or(refusal(2, 40, 0)), "{line} byte {at}");
        }
    }
    // Such a remark takes no part in what follows.
    let mut parts = Parts::new(&[]);
    parts.remarks = ["[qSORecords;9]", "tnAME=", "[rEMARKS]"].map(String::from).to_vec();
    assert_eq!(read(&parts.bytes()).unwrap().respelt(), 0);
}

/// A bad argument is told as before, and a bad line end before the keyword.
#[test]
fn refusals_behind_a_respelt_keyword() {
    assert_eq!(read(&with_header_line(2, b"pcALL=oz1aa")).err(), refusal(4, 4, 0));
    assert_eq!(read(&with_header_line(2, b"pcALL oz1aa")).err(), refusal(3, 4, 0));
    assert_eq!(read(&with_header_line(2, b"pcALL\x1dOZ1AA")).err(), refusal(2, 4, 0));
    assert_eq!(read(&with_header_line(19, b"MOpe\x11=")).err(), refusal(2, 21, 0));
    assert_eq!(read(&with_header_line(19, b"MOpel=")).err(), refusal(3, 21, 0));
    assert_eq!(read(&with_header_line(19, b"MOpeQ=")).err(), refusal(3, 21, 0));
    assert_eq!(read(&with_header_line(0, b"TNam=")).err(), refusal(3, 2, 0));
    assert_eq!(read(&with_header_line(0, b"TNames=")).err(), refusal(3, 2, 0));
    assert_eq!(read(&with_header_line(0, b"tname")).err(), refusal(3, 2, 0));
}

#[test]
fn longest_log_and_order_of_refusals() {
    let mut parts = Parts::new(&[]);
    while parts.bytes().len() + 154 <= 65_535 {
        parts.remarks.push("x".repeat(75));
    }
    let gap = 65_535 - parts.bytes().len();
    parts.remarks.push("x".repeat(gap / 2 - 2));
    parts.remarks.push("x".repeat(gap - gap / 2 - 2));
    let mut log = parts.bytes();
    assert_eq!(log.len(), 65_535);
    assert!(read(&log).is_ok());
    log.push(b'x');
    assert_eq!(read(&log).err(), refusal(1, 0, 0));
    log[0] = 0;
    assert_eq!(read(&log).err(), refusal(1, 0, 0));
    assert_eq!(desk(&log), "REFUSED 1 0 0\n");
    assert_eq!(view(&log, 0).err(), refusal(9, 0, 0));
    assert_eq!(view(&log, usize::MAX).err(), refusal(9, 0, 0));
    assert_eq!(view(&log, 1).err(), refusal(1, 0, 0));
    log.truncate(65_535);
    assert_eq!(judge(&log, 0).err(), refusal(2, 1, 0));
    assert_eq!(write(&log, 0).err(), refusal(2, 1, 0));
}

#[test]
fn lent_slices_too_short() {
    let record = RECORD.join(";");
    let log = Parts::new(&[&record, &record]).bytes();
    assert_eq!(judge(&log, 1).err(), refusal(7, 0, 0));
    assert!(judge(&log, 2).is_ok());
    let length = write(&log, 65_535).unwrap().len();
    assert_eq!(write(&log, length - 1).err(), refusal(8, 0, 0));
    assert!(write(&log, length).is_ok());
}

fn judged(records: &[&str]) -> (Totals, Vec<u8>) {
    judge(&Parts::new(records).bytes(), 999).unwrap()
}

#[test]
fn void_and_error_records_make_nothing_old() {
    let (totals, verdicts) = judged(&[
        "240302;1401;DK1AA;;;;;;A;JO65;0;N;N;N;",
        ";1401;ERROR;;;;;;A;JO65;0;N;N;N;D",
        "240302;1401;DK1AA;;;;;;A;JO65FR;5;;;;D",
        "240302;1401;DK1AA;;;;;;B;JO66;5;N;N;N;",
        "240302;1401;DK1AA;;;;;;B;JO66;0;N;N;N;",
        "240302;1401;DK2AA;;;;;;B;JO66;7;;;N;",
        "240302;1401;DK3AA;;;;;;A ;;7;;;;",
    ]);
    assert_eq!(verdicts, [1, 3, 48, 2, 1, 112, 16]);
    assert_eq!(totals.as_list(), [3, 2, 1, 1, 19, 2, 3, 1, 0, 0, 0, 19]);
}

#[test]
fn the_band_multiplier_takes_no_part() {
    let mut parts = Parts::new(&["240302;1401;DK1AA;;;;;;A;JO65;10;;;N;"]);
    for (keyword, value) in [("CQSOs", "0;99"), ("CWWLs", "0;100;2"), ("CExcs", "0;20;3"), ("CDXCs", "0;3;5")] {
        parts.header[place(keyword)] = format!("{keyword}={value}");
    }
    let (totals, _) = judge(&parts.bytes(), 1).unwrap();
    assert_eq!(totals.as_list(), [1, 0, 0, 0, 10, 1, 1, 1, 100, 20, 3, 133 * 30]);
}
