//! The fourteen cases that stand on both sides of the line, and keywords in
//! spellings of their own.

use reference::reading::KEYWORDS;
use reference::{desk, judge, read, view, write, Refusal, Totals};

const SAMPLE: &[u8] = include_bytes!("../samples/region1-1995.edi");

const RECORDS: [&str; 5] = [
    "240302;1401;DK1AA;1;59;001;59;004;;JO40AA;120;;N;N;",
    "240302;1405;OZ1BB;1;59;002;59;010;;JO40BC;80;;;N;",
    "240302;1410;ERROR;;;003;;;;;0;;;;",
    "240302;1412;DK1AA;2;599;004;599;009;;JO40AA;120;;;;",
    "240302;1420;SM5CC;1;53;005;;;;;0;;;;",
];

const HEADER: [&str; 36] = [
    "TName=March contest", "TDate=20240302;20240303", "PCall=OZ9ZZ", "PWWLo=JO65FR", "PExch=",
    "PAdr1=", "PAdr2=", "PSect=", "PBand=144 MHz", "PClub=", "RName=", "RCall=", "RAdr1=",
    "RAdr2=", "RPoCo=", "RCity=", "RCoun=", "RPhon=", "RHBBS=", "MOpe1=", "MOpe2=", "STXEq=",
    "SPowe=", "SRXEq=", "SAnte=", "SAntH=", "CQSOs=0;1", "CQSOP=0", "CWWLs=9;500;1", "CWWLB=0",
    "CExcs=0;0;1", "CExcB=0", "CDXCs=0;0;1", "CDXCB=0", "CToSc=0", "CODXC=;;0",
];

/// The number of the count line of `log_of` without remarks.
const COUNT_LINE: u32 = 39;

fn log_with(remarks: &[&str], count: &str, records: &[&str]) -> Vec<u8> {
    let mut lines = vec!["[REG1TEST;1]"];
    lines.extend(HEADER);
    lines.push("[Remarks]");
    lines.extend(remarks);
    lines.push(count);
    lines.extend(records);
    lines.iter().flat_map(|line| format!("{line}\r\n").into_bytes()).collect()
}

fn log_of(records: &[&str]) -> Vec<u8> {
    log_with(&[], &format!("[QSORecords;{}]", records.len()), records)
}

fn refusal(number: u32, line: u32, field: u32) -> Option<Refusal> {
    Some(Refusal { number, line, field })
}

fn of_record(record: &str) -> Option<Refusal> {
    read(&log_of(&[record])).err()
}

#[test]
fn case_1_empty_input() {
    assert_eq!(read(b"").err(), refusal(2, 1, 0));
    assert_eq!(desk(b""), "REFUSED 2 1 0\n");
}

#[test]
fn case_2_no_records() {
    let (totals, verdicts) = judge(&log_of(&[]), 0).unwrap();
    assert_eq!(totals, Totals::default());
    assert!(verdicts.is_empty());
}

#[test]
fn case_3_count_of_999_and_1000() {
    let many = log_with(&[], "[QSORecords;999]", &[]);
    assert_eq!(read(&many).err(), refusal(6, COUNT_LINE + 1, 0));
    let more = log_with(&[], "[QSORecords;1000]", &[]);
    assert_eq!(read(&more).err(), refusal(4, COUNT_LINE, 0));
    let record = "240302;1401;DK1AA;;;;;;;;1;;;;";
    assert_eq!(read(&log_of(&[record; 999])).unwrap().records.len(), 999);
}

#[test]
fn case_4_remark_of_75_and_76() {
    let longest = "x".repeat(75);
    assert!(read(&log_with(&["", &longest], "[QSORecords;0]", &[])).is_ok());
    let longer = "x".repeat(76);
    let log = log_with(&["", &longer], "[QSORecords;0]", &[]);
    assert_eq!(read(&log).err(), refusal(2, 40, 0));
    // The fourth remark of the sample has 76 characters.
    assert_eq!(read(SAMPLE).err(), refusal(2, 42, 0));
}

#[test]
fn case_5_leap_day() {
    assert_eq!(of_record("240229;1401;DK1AA;;;;;;;;1;;;;"), None);
    assert_eq!(of_record("230229;1401;DK1AA;;;;;;;;1;;;;"), refusal(5, 40, 1));
}

#[test]
fn case_6_time_of_day() {
    assert_eq!(of_record("240302;2359;DK1AA;;;;;;;;1;;;;"), None);
    assert_eq!(of_record("240302;2400;DK1AA;;;;;;;;1;;;;"), refusal(5, 40, 2));
}

#[test]
fn case_7_short_call() {
    assert_eq!(of_record("240302;1401;DK;;;;;;;;1;;;;"), refusal(5, 40, 3));
}

#[test]
fn case_8_error_with_points() {
    assert_eq!(of_record("240302;1401;ERROR;;;;;;;;1;;;;"), refusal(5, 40, 11));
    assert_eq!(of_record(";1401;ERROR;;;;;;;;0;;;;"), None);
}

#[test]
fn case_9_one_square() {
    let log = log_of(&[
        "240302;1401;DK1AA;;;;;;;JO65FR;1;;;;",
        "240302;1402;DK2AA;;;;;;;JO65;1;;;;",
    ]);
    let (totals, verdicts) = judge(&log, 2).unwrap();
    assert_eq!((totals.squares, verdicts), (1, vec![32, 0]));
    assert_eq!(of_record("240302;1401;DK1AA;;;;;;;JS65;1;;;;"), refusal(5, 40, 10));
}

#[test]
fn case_10_leading_zeros() {
    assert_eq!(of_record("240302;1401;DK1AA;;;;;;;;007;;;;"), refusal(5, 40, 11));
}

#[test]
fn case_11_records_too_few_and_too_many() {
    let few = log_with(&[], "[QSORecords;2]", &RECORDS[..1]);
    assert_eq!(read(&few).err(), refusal(6, 41, 0));
    let many = log_with(&[], "[QSORecords;2]", &RECORDS[..3]);
    assert_eq!(read(&many).err(), refusal(6, 42, 0));
}

#[test]
fn case_12_verdicts_and_desk() {
    let log = log_of(&RECORDS);
    let (totals, verdicts) = judge(&log, 5).unwrap();
    assert_eq!(verdicts, [96, 64, 3, 2, 1]);
    assert_eq!(totals.as_list(), [2, 1, 1, 1, 200, 1, 0, 2, 500, 0, 0, 700]);
    assert_eq!(totals.modes, [0, 2, 0, 0, 0, 0, 0, 0, 0, 0, 0]);
    let lines = "QSOS 2\nPOINTS 200\nWWLS 1\nEXCHANGES 0\nDXCCS 2\nTOTAL 700\n";
    let modes = "MODE 0 0\nMODE 1 2\nMODE 2 0\nMODE 3 0\nMODE 4 0\nMODE 5 0\nMODE 6 0\nMODE 7 0\nMODE 8 0\nMODE 9 0\nMODE - 0\n";
    assert_eq!(desk(&log), format!("{lines}{modes}"));
}

#[test]
fn case_12_written_back() {
    let written = write(&log_of(&RECORDS), 65_535).unwrap();
    let text = String::from_utf8(written.clone()).unwrap();
    let lines: Vec<&str> = text.split("\r\n").collect();
    assert_eq!(lines[27..37], [
        "CQSOs=2;1", "CQSOP=200", "CWWLs=1;500;1", "CWWLB=500", "CExcs=0;0;1", "CExcB=0",
        "CDXCs=2;0;1", "CDXCB=0", "CToSc=700", "CODXC=;;0",
    ]);
    assert_eq!(lines[42], "240302;1412;DK1AA;2;599;004;599;009;;JO40AA;0;;;;D");
    for untouched in [39, 40, 41, 43] {
        assert_eq!(lines[untouched], RECORDS[untouched - 39]);
    }
    assert_eq!(desk(&written), desk(&log_of(&RECORDS)));
}

#[test]
fn case_13_struck_before_and_after_writing() {
    let (totals, verdicts) = judge(&log_of(&RECORDS[1..]), 4).unwrap();
    assert_eq!((totals.total, verdicts[2]), (700, 0));
    let written = String::from_utf8(write(&log_of(&RECORDS), 65_535).unwrap()).unwrap();
    let kept: Vec<&str> = written.split("\r\n").skip(40).take(4).collect();
    let (totals, _) = judge(&log_of(&kept), 4).unwrap();
    assert_eq!(totals.total, 580);
}

/// The sample without the lines between the remarks mark and the count line.
fn sample_without_remarks() -> Vec<u8> {
    let text = std::str::from_utf8(SAMPLE).unwrap();
    let mark = text.find("[Remarks]\r\n").unwrap() + "[Remarks]\r\n".len();
    let count = text.find("[QSORecords;").unwrap();
    format!("{}{}", &text[..mark], &text[count..]).into_bytes()
}

#[test]
fn case_14_sample() {
    let log = sample_without_remarks();
    let (totals, _) = judge(&log, 26).unwrap();
    assert_eq!(totals.credited, 24);
    assert_eq!(totals.points, 11_579);
    assert_eq!(totals.squares, 19);
    assert_eq!(totals.countries, 7);
    assert_eq!(totals.duplicates, 1);
    assert_eq!(totals.errors, 1);
    // Its claims are true, so writing back leaves it as it is.
    assert_eq!(write(&log, log.len()).unwrap(), log);
}

#[test]
fn sample_views() {
    let log = sample_without_remarks();
    let text = |keyword| {
        let seen = view(&log, keyword).unwrap();
        assert!(seen.listed);
        std::str::from_utf8(&log[seen.start..seen.start + seen.length]).unwrap()
    };
    assert_eq!(text(1), "IARU Region 1, March contest VHF");
    assert_eq!(text(5), "");
    assert_eq!(text(26), "14;41");
    assert_eq!(text(36), "OY9JD;IP62OA;1302");
    assert_eq!(view(&log, 0).err(), refusal(9, 0, 0));
    assert_eq!(view(&log, 37).err(), refusal(9, 0, 0));
    assert_eq!(view(SAMPLE, 37).err(), refusal(9, 0, 0));
    assert_eq!(view(SAMPLE, 36).err(), refusal(2, 42, 0));
}

/// The sample without its remarks, with some keywords in other spellings.
fn sample_spelt(spellings: &[(&str, &str)]) -> Vec<u8> {
    let mut text = String::from_utf8(sample_without_remarks()).unwrap();
    for (listed, spelt) in spellings {
        let line = format!("\r\n{listed}=");
        assert_eq!(text.matches(&line).count(), 1);
        text = text.replace(&line, &format!("\r\n{spelt}="));
    }
    text.into_bytes()
}

#[test]
fn old_spellings_are_read() {
    let listed = sample_without_remarks();
    let old = sample_spelt(&[
        ("PExch", "PEXch"), ("SAntH", "SAnth"), ("CQSOs", "CQSOS"), ("CExcs", "CEXcs"), ("CExcB", "CEXcB"),
    ]);
    assert_eq!(read(&old).unwrap().respelt(), 5);
    assert_eq!(judge(&old, 26), judge(&listed, 26));
    assert_eq!(desk(&old), desk(&listed));
    for (keyword, name) in KEYWORDS.iter().enumerate() {
        let (one, other) = (view(&old, keyword + 1).unwrap(), view(&listed, keyword + 1).unwrap());
        let kept = !["PExch", "SAntH", "CQSOs", "CExcs", "CExcB"].contains(name);
        assert_eq!((one.start, one.length, one.listed), (other.start, other.length, kept), "{name}");
    }
}

#[test]
fn old_spellings_are_written_back_as_listed() {
    let listed = sample_without_remarks();
    let old = sample_spelt(&[("SAntH", "SAnth"), ("CQSOs", "CQSOS"), ("CExcs", "CEXcs"), ("TName", "tnAME")]);
    assert_ne!(old, listed);
    // The sample's claims are true, so nothing but the spelling changes.
    assert_eq!(write(&old, old.len()).unwrap(), listed);
    assert_eq!(write(&old, old.len() - 1).err(), refusal(8, 0, 0));
    // Where a claim is false too, both are put right.
    let text = String::from_utf8(old).unwrap().replace("CQSOS=24;1", "CQSOS=9999;1").replace("SAnth=14;41", "SAnth=");
    let written = String::from_utf8(write(text.as_bytes(), 65_535).unwrap()).unwrap();
    let text = String::from_utf8(listed).unwrap();
    assert_eq!(written, text.replace("SAntH=14;41", "SAntH="));
}

#[test]
fn misprints_are_not_read() {
    for (listed, printed, line) in [("MOpe1", "MOpel", 21), ("CDXCs", "CDXCc", 34), ("CQSOs", "CQS0s", 28)] {
        let log = sample_spelt(&[(listed, printed)]);
        assert_eq!(read(&log).err(), refusal(3, line, 0), "{printed}");
        assert_eq!(judge(&log, 26).err(), refusal(3, line, 0), "{printed}");
        assert_eq!(view(&log, 1).err(), refusal(3, line, 0), "{printed}");
        assert_eq!(write(&log, 65_535).err(), refusal(3, line, 0), "{printed}");
    }
    // An earlier keyword that is only respelt does not come into it.
    let log = sample_spelt(&[("TName", "TNAME"), ("MOpe1", "mopel")]);
    assert_eq!(read(&log).err(), refusal(3, 21, 0));
}

#[test]
fn sample_with_bare_line_feeds() {
    let bytes: Vec<u8> = SAMPLE.iter().copied().filter(|&b| b != b'\r').collect();
    assert_eq!(read(&bytes).err(), refusal(2, 1, 0));
}
