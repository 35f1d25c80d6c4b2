//! Logs with one thing broken, each fault with a tag that names the rule.

use crate::draft::{self, join, Draft, FIRST_KEYWORD, REMARKS_LINE};
use crate::random::Random;
use crate::reading::{FREE, KEYWORDS, LONGEST_LOG};

/// What a fault's maker knows about the answer to it.
#[derive(Clone, Copy, Debug, PartialEq, Eq)]
pub enum Expectation {
    Accepted,
    Refused { number: u32, line: u32, field: u32 },
    /// The maker does not know; the judge has to say.
    Open,
}

fn refused(number: u32, place: usize, field: usize) -> Expectation {
    // Places are counted from 0 and lines from 1.
    Expectation::Refused { number, line: place as u32 + 1, field: field as u32 }
}

const TOO_LONG: Expectation = Expectation::Refused { number: 1, line: 0, field: 0 };

type Maker = fn(&mut Random) -> (Vec<u8>, Expectation);

enum Break {
    /// A bad argument for one keyword.
    Argument(&'static str, &'static [&'static str]),
    /// A bad count line.
    Count(&'static [&'static str]),
    /// A bad field in one record.
    Field(usize, &'static [&'static str]),
    /// A line that is not ended, or not made, as lines are.
    Line(LineKind, LineFault),
    /// Something else.
    Other(Maker),
}

pub struct Fault {
    pub tag: String,
    way: Break,
}

#[derive(Clone, Copy)]
enum LineKind {
    Identifier,
    FreeKeyword,
    ForcedKeyword,
    RemarksMark,
    Remark,
    Count,
    Record,
}

#[derive(Clone, Copy)]
enum LineFault {
    BareLineFeed,
    BareReturn,
    EndsSwapped,
    TooLong,
    Cut,
    /// This byte somewhere in the line.
    Byte(u8),
}

const LINE_KINDS: [(&str, LineKind); 7] = [
    ("identifier", LineKind::Identifier),
    ("free-keyword", LineKind::FreeKeyword),
    ("forced-keyword", LineKind::ForcedKeyword),
    ("remarks-mark", LineKind::RemarksMark),
    ("remark", LineKind::Remark),
    ("count", LineKind::Count),
    ("record", LineKind::Record),
];

const LINE_FAULTS: [(&str, LineFault); 13] = [
    ("bare-line-feed", LineFault::BareLineFeed),
    ("bare-return", LineFault::BareReturn),
    ("ends-swapped", LineFault::EndsSwapped),
    ("76-characters", LineFault::TooLong),
    ("cut", LineFault::Cut),
    ("byte-0", LineFault::Byte(0)),
    ("byte-9", LineFault::Byte(9)),
    ("byte-31", LineFault::Byte(31)),
    ("byte-128", LineFault::Byte(128)),
    ("byte-160", LineFault::Byte(160)),
    ("byte-255", LineFault::Byte(255)),
    ("return-inside", LineFault::Byte(13)),
    ("line-feed-inside", LineFault::Byte(10)),
];

/// Keyword, what is wrong, and arguments that have it wrong.
const ARGUMENTS: &[(&str, &str, &[&str])] = &[
    ("TDate", "empty", &["", ";"]),
    ("TDate", "one-date", &["20240302", "20240302;", ";20240302"]),
    ("TDate", "three-dates", &["20240302;20240303;20240304", "20240302;20240303;", ";20240302;20240303"]),
    ("TDate", "double-semicolon", &["20240302;;20240303"]),
    ("TDate", "reversed", &["20240303;20240302", "20240402;20240331", "20250101;20241231", "20000101;19991231"]),
    ("TDate", "day", &[
        "20230229;20240101", "20240230;20240301", "20240431;20240501", "20240100;20240101", "20240132;20240201",
        "20240101;20250229", "20240101;20240631", "20240101;20240200", "20240101;20241232", "20220101;20890229",
    ]),
    ("TDate", "month", &["20240001;20240101", "20241301;20250101", "20240101;20240001", "20240101;20241301", "20240101;20249901"]),
    ("TDate", "year", &["19891231;20240101", "20891231;20900101", "00000101;20240101", "19000101;19900101", "20900101;20900102"]),
    ("TDate", "shape", &[
        "240302;240303", "2024-03-02;2024-03-03", "20240302,20240303", "20240302 20240303", " 20240302;20240303",
        "20240302; 20240303", "20240302;20240303 ", "020240302;020240303", "2024030;20240302", "2024O302;20240303", "+2024030;20240302",
    ]),
    ("PCall", "empty", &[""]),
    ("PCall", "two-characters", &["OZ", "//", "A1"]),
    ("PCall", "fifteen-characters", &["AAAAAAAAAAAAAAA", "OZ1AA/123456789"]),
    ("PCall", "lower-case", &["oz1aa", "OZ1AA/p", "OZ1aA"]),
    ("PCall", "other-character", &["OZ1 AA", "OZ1AA ", " OZ1AA", "OZ-1AA", "OZ1AA;", "OZ1:AA", "OZ1@AA", "OZ1[AA", "OZ1.AA", "\x7f1AA", "OZ1AA;OZ1BB"]),
    ("PClub", "two-characters", &["OZ", "//"]),
    ("PClub", "fifteen-characters", &["AAAAAAAAAAAAAAA"]),
    ("PClub", "other-character", &["oz1aa", "OZ1 AA", " ", "OZ1AA;", ";", "OZ1AA;OZ1BB"]),
    ("RCall", "two-characters", &["OZ", "//"]),
    ("RCall", "fifteen-characters", &["AAAAAAAAAAAAAAA"]),
    ("RCall", "other-character", &["oz1aa", "OZ1 AA", " ", "OZ1AA;", ";", "OZ1AA;OZ1BB"]),
    ("MOpe1", "bad-call", &["OZ", "OZ1AA;OZ", "OZ;OZ1AA", "AAAAAAAAAAAAAAA", "oz1aa", "OZ1AA; OZ1BB", "OZ1AA,OZ1BB", "OZ1AA;OZ1BB ", " "]),
    ("MOpe1", "empty-call", &[";", "OZ1AA;", ";OZ1AA", "OZ1AA;;OZ1BB", ";;"]),
    ("MOpe2", "bad-call", &["OZ", "OZ1AA;OZ", "OZ;OZ1AA", "AAAAAAAAAAAAAAA", "oz1aa", "OZ1AA; OZ1BB", "OZ1AA,OZ1BB", "OZ1AA;OZ1BB ", " "]),
    ("MOpe2", "empty-call", &[";", "OZ1AA;", ";OZ1AA", "OZ1AA;;OZ1BB", ";;"]),
    ("PWWLo", "empty", &[""]),
    ("PWWLo", "length", &["JO", "JO6", "JO65F", "JO65FR1", "JO65FR12", "JO65FRAA"]),
    ("PWWLo", "first-letters", &["SO65FR", "JS65", "jo65FR", "1O65", "@O65", "JZ65", "Jo65"]),
    ("PWWLo", "digits", &["JOA5FR", "JO6A", "JO 5", "JO6/", "JO:5", "JOJO"]),
    ("PWWLo", "last-letters", &["JO65YR", "JO65FY", "JO65fr", "JO6512", "JO65F ", "JO65@A", "JO65FZ"]),
    ("PWWLo", "other-character", &["JO65;", ";", "JO65 ", " JO65"]),
    ("PExch", "seven-characters", &["ABCDEFG", "       ", "1234567"]),
    ("PExch", "semicolon", &[";", "A;B", "ABCDE;"]),
    ("PExch", "lower-case", &["a", "z", "ABCDEa", "mABC"]),
    ("PBand", "unknown", &["145 MHz", "435 MHz", "122 GHz", "134 GHz", "1296 MHz", "", "28 MHz", "50 GHz", "432 GHz"]),
    ("PBand", "spelling", &["144MHz", "144 mhz", "144 MHZ", "1.3 GHz", "1,3 Ghz", "144  MHz", "144,0 MHz"]),
    ("PBand", "part", &["144", "144 MH", "4 MHz", "1,3", "0 MHz", "MHz", "14"]),
    ("PBand", "more", &["144 MHz ", " 144 MHz", "144 MHz;", "144 MHz;432 MHz", "0144 MHz"]),
    ("CQSOs", "few-parts", &["", "24", "1"]),
    ("CQSOs", "many-parts", &["24;1;1", "24;1;", ";24;1", "24;;1"]),
    ("CQSOs", "empty-part", &[";", ";1", "24;"]),
    ("CQSOs", "count", &["10000;1", "99999;1", "4294967296;1", "18446744073709551616;1"]),
    ("CQSOs", "multiplier", &["24;0", "24;100", "24;999", "24;256", "24;4294967297"]),
    ("CQSOs", "leading-zero", &["024;1", "24;01", "00;1", "24;00", "0000;1"]),
    ("CQSOs", "other-character", &["2A;1", "+24;1", "-1;1", "24;-1", "24; 1", "24 ;1", "24;1 ", " 24;1", "24,1", "2.4;1"]),
    ("CWWLs", "few-parts", &["", "9", "9;500", ";"]),
    ("CWWLs", "many-parts", &["9;500;1;1", "9;500;1;", ";9;500;1", "9;;500;1"]),
    ("CWWLs", "empty-part", &[";500;1", "9;;1", "9;500;", ";;"]),
    ("CWWLs", "count", &["10000;500;1", "99999;0;1", "4294967296;0;1"]),
    ("CWWLs", "bonus", &["9;10000;1", "9;99999;1", "9;4294967296;1"]),
    ("CWWLs", "multiplier", &["9;500;0", "9;500;100", "9;500;101", "9;500;257"]),
    ("CWWLs", "leading-zero", &["09;500;1", "9;0500;1", "9;500;01", "00;0;1", "0;00;1"]),
    ("CWWLs", "other-character", &["A;500;1", "9;-1;1", "9;500;+1", "9 ;500;1", "9; 500;1", "9;500;1 ", "9,500,1", "9;5E2;1"]),
    ("CExcs", "few-parts", &["", "9", "9;500", ";"]),
    ("CExcs", "many-parts", &["9;500;1;1", "9;500;1;", ";9;500;1", "9;;500;1"]),
    ("CExcs", "empty-part", &[";500;1", "9;;1", "9;500;", ";;"]),
    ("CExcs", "count", &["10000;500;1", "99999;0;1", "4294967296;0;1"]),
    ("CExcs", "bonus", &["9;10000;1", "9;99999;1", "9;4294967296;1"]),
    ("CExcs", "multiplier", &["9;500;0", "9;500;100", "9;500;101", "9;500;257"]),
    ("CExcs", "leading-zero", &["09;500;1", "9;0500;1", "9;500;01", "00;0;1", "0;00;1"]),
    ("CExcs", "other-character", &["A;500;1", "9;-1;1", "9;500;+1", "9 ;500;1", "9; 500;1", "9;500;1 ", "9,500,1", "9;5E2;1"]),
    ("CDXCs", "few-parts", &["", "9", "9;500", ";"]),
    ("CDXCs", "many-parts", &["9;500;1;1", "9;500;1;", ";9;500;1", "9;;500;1"]),
    ("CDXCs", "empty-part", &[";500;1", "9;;1", "9;500;", ";;"]),
    ("CDXCs", "count", &["10000;500;1", "99999;0;1", "4294967296;0;1"]),
    ("CDXCs", "bonus", &["9;10000;1", "9;99999;1", "9;4294967296;1"]),
    ("CDXCs", "multiplier", &["9;500;0", "9;500;100", "9;500;101", "9;500;257"]),
    ("CDXCs", "leading-zero", &["09;500;1", "9;0500;1", "9;500;01", "00;0;1", "0;00;1"]),
    ("CDXCs", "other-character", &["A;500;1", "9;-1;1", "9;500;+1", "9 ;500;1", "9; 500;1", "9;500;1 ", "9,500,1", "9;5E2;1"]),
    ("CQSOP", "empty", &[""]),
    ("CQSOP", "ten-digits", &["1000000000", "9999999999", "4294967296"]),
    ("CQSOP", "leading-zero", &["00", "01", "000000000", "012345678"]),
    ("CQSOP", "other-character", &["1A", "+1", "-1", " 1", "1 ", "1;", ";1", "1,000", "0x10", "1;1"]),
    ("CWWLB", "empty", &[""]),
    ("CWWLB", "eight-digits", &["10000000", "99999999"]),
    ("CWWLB", "leading-zero", &["00", "01", "0000000", "0123456"]),
    ("CWWLB", "other-character", &["1A", "+1", "-1", " 1", "1 ", "1;", ";1", "1:", "/1"]),
    ("CExcB", "empty", &[""]),
    ("CExcB", "eight-digits", &["10000000", "99999999"]),
    ("CExcB", "leading-zero", &["00", "01", "0000000", "0123456"]),
    ("CExcB", "other-character", &["1A", "+1", "-1", " 1", "1 ", "1;", ";1", "1:", "/1"]),
    ("CDXCB", "empty", &[""]),
    ("CDXCB", "eight-digits", &["10000000", "99999999"]),
    ("CDXCB", "leading-zero", &["00", "01", "0000000", "0123456"]),
    ("CDXCB", "other-character", &["1A", "+1", "-1", " 1", "1 ", "1;", ";1", "1:", "/1"]),
    ("CToSc", "empty", &[""]),
    ("CToSc", "sixteen-digits", &["1000000000000000", "9999999999999999", "18446744073709551616"]),
    ("CToSc", "leading-zero", &["00", "01", "000000000000000", "012345678901234"]),
    ("CToSc", "other-character", &["1A", "+1", "-1", " 1", "1 ", "1;", ";1", "1.0"]),
    ("CODXC", "few-parts", &["", ";", "OY9JD;1302", "1302", "OY9JD;IP62OA"]),
    ("CODXC", "many-parts", &[";;;0", "OY9JD;IP62OA;1302;", ";OY9JD;IP62OA;1302", ";;0;0"]),
    ("CODXC", "call", &["OY;IP62OA;1302", "oy9jd;IP62OA;1302", "AAAAAAAAAAAAAAA;;0", " ;;0", "OY 9;IP62;1"]),
    ("CODXC", "locator", &["OY9JD;IP620A;1302", "OY9JD;IP6;1302", "OY9JD;SP62OA;1302", ";IP62YA;0", "; ;0", ";IP62O;0", ";ip62;0"]),
    ("CODXC", "distance", &["OY9JD;IP62OA;", ";;", ";;1000000", ";;007", ";;00", ";;1A", ";;-1", ";; 1", ";;1 ", ";;1,5"]),
];

/// Field, what is wrong, and contents that have it wrong.
const FIELDS: &[(usize, &str, &[&str])] = &[
    (1, "empty", &[""]),
    (1, "day", &["230229", "240230", "240431", "240100", "240132", "250229", "010229", "900229", "990229", "890229", "241131"]),
    (1, "month", &["240001", "241301", "249901", "240000"]),
    (1, "shape", &["24030", "2403022", "20240302", "24O302", "24 302", " 40302", "24030 ", "24-302", "2", "+40302", "24/302"]),
    (2, "empty", &[""]),
    (2, "hour", &["2400", "2401", "2500", "9900", "2459", "3000"]),
    (2, "minute", &["0060", "1260", "2360", "0099", "2399", "0161"]),
    (2, "shape", &["0", "140", "14010", "14:01", "14 1", "14O1", " 401", "140 ", "-101", "1/01", "1:01"]),
    (3, "empty", &[""]),
    (3, "two-characters", &["DK", "//", "12"]),
    (3, "fifteen-characters", &["AAAAAAAAAAAAAAA", "DL/OZ1ABCDEF/PM"]),
    (3, "lower-case", &["dk1aa", "error", "Error", "DK1AA/p", "DK1zAA"]),
    (3, "other-character", &["DK1 AA", "DK1AA ", " DK1AA", "ERROR ", "DK-1AA", "DK1.AA", "DK1:AA", "DK1@AA", "DK1[AA", "   ", "DK1\x7f"]),
    (4, "two-characters", &["11", "00", "1 "]),
    (4, "no-digit", &["A", " ", "/", ":", "\x7f", "N"]),
    (5, "length", &["5", "5999", "59AA", "A"]),
    (5, "first-two", &["5A", "A9", "5 ", " 9", "5A9", "A59", "/99", "5:9"]),
    (5, "third", &["59a", "59 ", "59@", "59[", "59/", "59:", "59+"]),
    (6, "length", &["1", "01", "00001", "12345"]),
    (6, "no-digit", &["00A", "0 1", " 01", "01 ", "A001", "001/", "-01"]),
    (7, "length", &["5", "5999", "59AA", "A"]),
    (7, "first-two", &["5A", "A9", "5 ", " 9", "5A9", "A59", "/99", "5:9"]),
    (7, "third", &["59a", "59 ", "59@", "59[", "59/", "59:", "59+"]),
    (8, "length", &["1", "01", "00001", "12345"]),
    (8, "no-digit", &["00A", "0 1", " 01", "01 ", "A001", "001/", "-01"]),
    (9, "seven-characters", &["ABCDEFG", "       ", "0000000"]),
    (9, "lower-case", &["a", "z", "ABCDEa", "aBC", "{a}"]),
    (10, "length", &["J", "JO", "JO6", "JO65F", "JO65FR1", "JO65FR12"]),
    (10, "first-letters", &["SO65FR", "JS65", "jo65FR", "1O65", "@O65", "JZ65"]),
    (10, "digits", &["JOA5FR", "JO6A", "JO 5", "JO6/", "JO:5", "JO6O"]),
    (10, "last-letters", &["JO65YR", "JO65FY", "JO65fr", "JO6512", "JO65F ", "JO65@A"]),
    (11, "empty", &[""]),
    (11, "leading-zero", &["007", "00", "01", "000000", "0120"]),
    (11, "seven-digits", &["1000000", "9999999", "0000001"]),
    (11, "no-digit", &["A", "12A", "-1", "+1", " 1", "1 ", "1,5", "1.0", "/", ":"]),
    (12, "wrong-letter", &["n", "D", "0", " ", "M", "O"]),
    (12, "two-characters", &["NN", "N ", " N"]),
    (13, "wrong-letter", &["n", "D", "0", " ", "M", "O"]),
    (13, "two-characters", &["NN", "N ", " N"]),
    (14, "wrong-letter", &["n", "D", "0", " ", "M", "O"]),
    (14, "two-characters", &["NN", "N ", " N"]),
    (15, "wrong-letter", &["d", "N", "0", " ", "C", "E"]),
    (15, "two-characters", &["DD", "D ", " D"]),
];

/// What is wrong with the count line, and count lines that have it wrong.
const COUNTS: &[(&str, &[&str])] = &[
    ("above-999", &["[QSORecords;1000]", "[QSORecords;1001]", "[QSORecords;9999]"]),
    ("huge", &["[QSORecords;65536]", "[QSORecords;4294967296]", "[QSORecords;18446744073709551616]", "[QSORecords;99999999999999999999999999999999999999999999999999999999999999]"]),
    ("leading-zero", &["[QSORecords;00]", "[QSORecords;01]", "[QSORecords;000]", "[QSORecords;0001]"]),
    ("no-number", &["[QSORecords;]", "[QSORecords;", "[QSORecords;x]", "[QSORecords;-1]", "[QSORecords;+1]"]),
    ("no-bracket", &["[QSORecords;1", "[QSORecords;0", "[QSORecords;1)", "[QSORecords;1}"]),
    ("after-bracket", &["[QSORecords;1] ", "[QSORecords;0]x", "[QSORecords;1]]", "[QSORecords;1];", "[QSORecords;1]1"]),
    ("other-character", &["[QSORecords; 1]", "[QSORecords;1 ]", "[QSORecords;1;]", "[QSORecords;;1]", "[QSORecords;1;1]", "[QSORecords;1,0]"]),
];

const BAD_IDENTIFIERS: [&str; 15] = [
    "", "[REG1TEST;2]", "[REG1TEST;1] ", " [REG1TEST;1]", "[reg1test;1]", "REG1TEST;1", "[REG1TEST]", "[REG1TEST;01]",
    "[REG1TEST;1", "[REG1TEST,1]", "[REG2TEST;1]", "[REG1TEST;1]x", "[REG1TESt;1]", "{REG1TEST;1]", "[REG1TEST;1}",
];

const BAD_REMARKS_MARKS: [&str; 14] = [
    "", "[remarks]", "[REMARKS]", "[Remarks] ", " [Remarks]", "[Remarks", "Remarks", "[Remarks;]", "[Remark]", "[Remarks]x",
    "[QSORecords;0]", "[RemArks]", "[RemarkS]", "{Remarks}",
];

/// Faults that take more than one bad value.
const OTHERS: &[(&str, Maker)] = &[
    ("log/65536-bytes", log_one_too_long),
    ("log/longer", log_much_too_long),
    ("log/too-long-and-broken", log_too_long_and_broken),
    ("missing/everything", nothing),
    ("missing/from-a-header-line", cut_before_header_line),
    ("missing/count-line-and-more", cut_before_count_line),
    ("identifier/spelling", bad_identifier),
    ("identifier/missing", identifier_missing),
    ("identifier/repeated", identifier_repeated),
    ("identifier/line-before", line_before_identifier),
    ("keyword/old-misprint", keyword_old_misprint),
    ("keyword/other-byte", keyword_other_byte),
    ("keyword/other-letter", keyword_other_letter),
    ("keyword/32-off", keyword_32_off),
    ("keyword/beside-the-letters", keyword_beside_the_letters),
    ("keyword/letter-for-digit", keyword_letter_for_digit),
    ("keyword/digit-for-letter", keyword_digit_for_letter),
    ("keyword/no-equals", keyword_no_equals),
    ("keyword/other-sign", keyword_other_sign),
    ("keyword/space-before-equals", keyword_space_before_equals),
    ("keyword/space-in-front", keyword_space_in_front),
    ("keyword/empty-line", keyword_empty_line),
    ("keyword/missing", keyword_missing),
    ("keyword/repeated", keyword_repeated),
    ("keyword/swapped", keyword_swapped),
    ("keyword/line-between", keyword_line_between),
    ("remarks-mark/spelling", bad_remarks_mark),
    ("remarks-mark/missing", remarks_mark_missing),
    ("count/early-bad-line", early_bad_count_line),
    ("record/semicolon-missing", semicolon_missing),
    ("record/semicolon-extra", semicolon_extra),
    ("record/no-semicolon", no_semicolon),
    ("record/only-14-semicolons", only_semicolons),
    ("record/empty-line", empty_record_line),
    ("record/error-with-points", error_with_points),
    ("record/error-without-points", error_without_points),
    ("record/error-without-time", error_without_time),
    ("record/error-with-bad-date", error_with_bad_date),
    ("record/no-date-but-nearly-error", nearly_error_without_date),
    ("few/one-missing", one_record_missing),
    ("few/none", no_records_at_all),
    ("many/one-extra", one_record_extra),
    ("many/byte-after", byte_after),
    ("many/empty-line-after", empty_line_after),
    ("many/after-none", record_after_none),
    ("many/early-count-line", early_count_line),
    ("order/6-before-2", extra_with_bad_byte),
    ("order/2-before-3", bad_keyword_and_bad_end),
    ("order/2-before-4", bad_argument_and_bad_end),
    ("order/2-before-5", bad_field_and_bad_end),
    ("order/3-before-4", bad_keyword_and_argument),
    ("order/semicolons-before-fields", semicolons_and_bad_field),
    ("order/first-bad-field", two_bad_fields),
    ("order/earlier-line", two_bad_records),
    ("order/no-date-before-bad-call", no_date_and_bad_call),
    ("order/bad-record-before-few", bad_record_and_few),
];

/// Every fault there is, in a fixed order.
pub fn all() -> Vec<Fault> {
    let mut faults = Vec::new();
    for &(keyword, wrong, values) in ARGUMENTS {
        faults.push(Fault { tag: format!("{keyword}/{wrong}"), way: Break::Argument(keyword, values) });
    }
    for &(field, wrong, values) in FIELDS {
        faults.push(Fault { tag: format!("field-{field}/{wrong}"), way: Break::Field(field, values) });
    }
    for (wrong, fault) in LINE_FAULTS {
        for (name, kind) in LINE_KINDS {
            faults.push(Fault { tag: format!("line/{wrong}/{name}"), way: Break::Line(kind, fault) });
        }
    }
    for &(wrong, values) in COUNTS {
        faults.push(Fault { tag: format!("count/{wrong}"), way: Break::Count(values) });
    }
    for &(tag, maker) in OTHERS {
        faults.push(Fault { tag: tag.to_string(), way: Break::Other(maker) });
    }
    faults
}

/// A log with any of them.
pub fn some_fault(random: &mut Random) -> Vec<u8> {
    let faults = all();
    random.pick(&faults).make(random).0
}

impl Fault {
    /// A log with this fault alone.
    pub fn make(&self, random: &mut Random) -> (Vec<u8>, Expectation) {
        match self.way {
            Break::Count(values) => bad_count_line(random, values),
            Break::Argument(keyword, values) => {
                let mut draft = draft::small(random);
                draft.set(keyword, random.pick(values).as_bytes());
                (draft.bytes(), refused(4, keyword_place(keyword), 0))
            }
            Break::Field(field, values) => {
                let mut draft = draft::small_with_all_parts(random);
                let place = spoil_field(random, &mut draft, field, values);
                (draft.bytes(), refused(5, place, field))
            }
            Break::Line(kind, fault) => bad_line(random, kind, fault),
            Break::Other(maker) => maker(random),
        }
    }
}

fn keyword_place(keyword: &str) -> usize {
    let place = KEYWORDS.iter().position(|&name| name == keyword);
    FIRST_KEYWORD + place.expect("a listed keyword")
}

/// Puts a bad field into some record and gives the place of its line. The
/// record is made afresh, so that no other field of it can be bad.
fn spoil_field(random: &mut Random, draft: &mut Draft, field: usize, values: &[&str]) -> usize {
    let chosen = random.below(draft.records.len());
    let mut record = fresh_record(random);
    let value = random.pick(values).as_bytes().to_vec();
    let may_be_error = field != 3 && !(field == 1 && value.is_empty());
    if may_be_error && random.chance(30) {
        draft::make_error(random, &mut record);
    }
    record[field - 1] = value;
    draft.records[chosen] = record;
    draft.first_record() + chosen
}

/// A good record, short enough that no bad value makes its line too long.
fn fresh_record(random: &mut Random) -> [Vec<u8>; 15] {
    draft::plain_record(random, b"DK1AA", true)
}

fn bad_count_line(random: &mut Random, values: &[&str]) -> (Vec<u8>, Expectation) {
    let draft = draft::small(random);
    let mut lines = draft.lines();
    let place = draft.count_line();
    lines[place] = random.pick(values).as_bytes().to_vec();
    (join(&lines), refused(4, place, 0))
}

fn place_of_kind(random: &mut Random, draft: &Draft, kind: LineKind) -> usize {
    match kind {
        LineKind::Identifier => 0,
        LineKind::FreeKeyword => keyword_place(random.pick::<&str>(&FREE)),
        LineKind::ForcedKeyword => keyword_place(some_forced_keyword(random)),
        LineKind::RemarksMark => REMARKS_LINE,
        LineKind::Remark => draft::FIRST_REMARK + random.below(draft.remarks.len()),
        LineKind::Count => draft.count_line(),
        LineKind::Record => draft.first_record() + random.below(draft.records.len()),
    }
}

fn some_forced_keyword(random: &mut Random) -> &'static str {
    loop {
        let keyword = *random.pick::<&'static str>(&KEYWORDS);
        if !FREE.contains(&keyword) {
            return keyword;
        }
    }
}

fn bad_line(random: &mut Random, kind: LineKind, fault: LineFault) -> (Vec<u8>, Expectation) {
    let draft = draft::small_with_all_parts(random);
    let place = place_of_kind(random, &draft, kind);
    (with_line_fault(random, &draft.lines(), place, fault), refused(2, place, 0))
}

fn with_line_fault(random: &mut Random, lines: &[Vec<u8>], place: usize, fault: LineFault) -> Vec<u8> {
    let mut line = lines[place].clone();
    let mut end: &[u8] = b"\r\n";
    let mut rest = &lines[place + 1..];
    match fault {
        LineFault::BareLineFeed => end = b"\n",
        LineFault::BareReturn => end = b"\r",
        LineFault::EndsSwapped => end = b"\n\r",
        LineFault::TooLong => {
            let length = if random.chance(70) { 76 } else { random.between(77, 160) };
            let fill = random.string(length, b"A0 ;\x7f");
            line.extend_from_slice(&fill[line.len()..]);
        }
        LineFault::Cut => {
            // At least one byte of the line stays, and its line feed goes.
            line.extend_from_slice(b"\r");
            line.truncate(random.between(1, line.len()));
            end = b"";
            rest = &[];
        }
        LineFault::Byte(byte) => {
            let at = random.below(line.len() + 1);
            // Inserted or put over another, so that lengths stay in bounds too.
            if at < line.len() && (line.len() == 75 || random.chance(50)) {
                line[at] = byte;
            } else {
                line.insert(at, byte);
            }
        }
    }
    [&join(&lines[..place]), &line[..], end, &join(rest)].concat()
}

// The makers of the other faults follow, in the order of their table.

fn padded(random: &mut Random, length: usize) -> Vec<u8> {
    let mut draft = draft::small(random);
    let more = length - draft.bytes().len();
    draft.pad(random, more);
    draft.bytes()
}

fn log_one_too_long(random: &mut Random) -> (Vec<u8>, Expectation) {
    (padded(random, LONGEST_LOG + 1), TOO_LONG)
}

fn log_much_too_long(random: &mut Random) -> (Vec<u8>, Expectation) {
    let length = LONGEST_LOG + random.between(2, 20_000);
    (padded(random, length), TOO_LONG)
}

fn log_too_long_and_broken(random: &mut Random) -> (Vec<u8>, Expectation) {
    let mut bytes = padded(random, LONGEST_LOG + 1);
    let at = random.below(40);
    bytes[at] = 0;
    (bytes, TOO_LONG)
}

fn nothing(_: &mut Random) -> (Vec<u8>, Expectation) {
    (Vec::new(), refused(2, 0, 0))
}

fn cut_before_header_line(random: &mut Random) -> (Vec<u8>, Expectation) {
    let lines = draft::small(random).lines();
    let place = random.between(1, REMARKS_LINE);
    (join(&lines[..place]), refused(2, place, 0))
}

fn cut_before_count_line(random: &mut Random) -> (Vec<u8>, Expectation) {
    let draft = draft::small(random);
    let place = random.between(draft::FIRST_REMARK, draft.count_line());
    (join(&draft.lines()[..place]), refused(2, place, 0))
}

fn with_line(random: &mut Random, place: usize, line: &[u8]) -> (Vec<u8>, Expectation) {
    let mut lines = draft::small(random).lines();
    lines[place] = line.to_vec();
    (join(&lines), refused(3, place, 0))
}

fn bad_identifier(random: &mut Random) -> (Vec<u8>, Expectation) {
    let line = random.pick(&BAD_IDENTIFIERS).as_bytes();
    with_line(random, 0, line)
}

fn identifier_missing(random: &mut Random) -> (Vec<u8>, Expectation) {
    let lines = draft::small(random).lines();
    (join(&lines[1..]), refused(3, 0, 0))
}

fn identifier_repeated(random: &mut Random) -> (Vec<u8>, Expectation) {
    let mut lines = draft::small(random).lines();
    lines.insert(0, lines[0].clone());
    (join(&lines), refused(3, 1, 0))
}

fn line_before_identifier(random: &mut Random) -> (Vec<u8>, Expectation) {
    let mut lines = draft::small(random).lines();
    lines.insert(0, random.pick(&["", " ", "TName=", "x"]).as_bytes().to_vec());
    (join(&lines), refused(3, 0, 0))
}

/// Changes some keyword line with `change`, which gets it and must spoil it.
fn with_keyword_line(random: &mut Random, change: fn(&mut Random, &mut Vec<u8>)) -> (Vec<u8>, Expectation) {
    let mut lines = draft::small(random).lines();
    let place = random.between(FIRST_KEYWORD, KEYWORDS.len());
    // Room for a change that adds a byte: an over-long line is another fault.
    lines[place].truncate(if FREE.contains(&KEYWORDS[place - 1]) { 74 } else { 75 });
    change(random, &mut lines[place]);
    lines[place].truncate(75);
    (join(&lines), refused(3, place, 0))
}

/// Misprints of 1995 that are other words, not the same letters in another case.
fn keyword_old_misprint(random: &mut Random) -> (Vec<u8>, Expectation) {
    let misprints = [("MOpe1", "MOpel"), ("CDXCs", "CDXCc"), ("CQSOs", "CQS0s")];
    let (listed, written) = *random.pick(&misprints);
    let mut lines = draft::small(random).lines();
    let place = keyword_place(listed);
    lines[place][..5].copy_from_slice(written.as_bytes());
    (join(&lines), refused(3, place, 0))
}

/// Puts another byte into the place of one in some keyword: `change` is given
/// the byte that stands there, and tells none where it has none for it. The
/// other byte is never the same letter in its other case.
fn with_keyword_byte(random: &mut Random, change: fn(&mut Random, u8) -> Option<u8>) -> (Vec<u8>, Expectation) {
    let mut draft = draft::small(random);
    loop {
        let keyword = random.below(KEYWORDS.len());
        let at = random.below(5);
        let before = draft.keywords[keyword][at];
        let after = change(random, before).filter(|byte| !byte.eq_ignore_ascii_case(&before));
        if let Some(byte) = after {
            draft.keywords[keyword][at] = byte;
            return (draft.bytes(), refused(3, FIRST_KEYWORD + keyword, 0));
        }
    }
}

fn keyword_other_byte(random: &mut Random) -> (Vec<u8>, Expectation) {
    with_keyword_byte(random, |random, _| Some(random.between(32, 127) as u8))
}

fn keyword_other_letter(random: &mut Random) -> (Vec<u8>, Expectation) {
    with_keyword_byte(random, |random, _| {
        let letter = random.between(b'A' as usize, b'Z' as usize) as u8;
        Some(if random.chance(50) { letter } else { letter.to_ascii_lowercase() })
    })
}

/// A byte that lies 32 below a capital and is no letter, as `!` below `A`, or
/// 32 above a digit, as `Q` above `1`: no case of what stands there.
fn keyword_32_off(random: &mut Random) -> (Vec<u8>, Expectation) {
    with_keyword_byte(random, |_, byte| match byte {
        b'0'..=b'9' => Some(byte + 32),
        b'A'..=b'Z' => Some(byte - 32),
        _ => None,
    })
}

/// The bytes beside the letters, which lie 32 apart as the two cases do.
fn keyword_beside_the_letters(random: &mut Random) -> (Vec<u8>, Expectation) {
    with_keyword_byte(random, |random, _| Some(*random.pick(b"@`[{\\|]}^~_\x7f")))
}

fn keyword_letter_for_digit(random: &mut Random) -> (Vec<u8>, Expectation) {
    with_keyword_byte(random, |random, byte| match byte {
        b'1' => Some(*random.pick(b"lLIi|Q")),
        b'2' => Some(*random.pick(b"zZR")),
        _ => None,
    })
}

fn keyword_digit_for_letter(random: &mut Random) -> (Vec<u8>, Expectation) {
    with_keyword_byte(random, |_, byte| match byte.to_ascii_lowercase() {
        b'o' => Some(b'0'),
        b'l' | b'i' => Some(b'1'),
        b's' => Some(b'5'),
        b'b' => Some(b'8'),
        _ => None,
    })
}

fn keyword_no_equals(random: &mut Random) -> (Vec<u8>, Expectation) {
    // A free argument that begins with `=` would stand in for the one removed.
    with_keyword_line(random, |random, line| {
        while line.get(5) == Some(&b'=') {
            line.remove(5);
        }
        if random.chance(30) {
            line.truncate(5);
        }
    })
}

fn keyword_other_sign(random: &mut Random) -> (Vec<u8>, Expectation) {
    with_keyword_line(random, |random, line| line[5] = *random.pick(b":; -<>"))
}

fn keyword_space_before_equals(random: &mut Random) -> (Vec<u8>, Expectation) {
    with_keyword_line(random, |_, line| line.insert(5, b' '))
}

fn keyword_space_in_front(random: &mut Random) -> (Vec<u8>, Expectation) {
    with_keyword_line(random, |_, line| line.insert(0, b' '))
}

fn keyword_empty_line(random: &mut Random) -> (Vec<u8>, Expectation) {
    with_keyword_line(random, |_, line| line.clear())
}

fn keyword_missing(random: &mut Random) -> (Vec<u8>, Expectation) {
    let mut lines = draft::small(random).lines();
    let place = random.between(FIRST_KEYWORD, KEYWORDS.len());
    lines.remove(place);
    (join(&lines), refused(3, place, 0))
}

fn keyword_repeated(random: &mut Random) -> (Vec<u8>, Expectation) {
    let mut lines = draft::small(random).lines();
    let place = random.between(FIRST_KEYWORD, KEYWORDS.len());
    lines.insert(place, lines[place].clone());
    (join(&lines), refused(3, place + 1, 0))
}

fn keyword_swapped(random: &mut Random) -> (Vec<u8>, Expectation) {
    let mut lines = draft::small(random).lines();
    let first = random.between(FIRST_KEYWORD, KEYWORDS.len() - 1);
    let second = random.between(first + 1, KEYWORDS.len());
    lines.swap(first, second);
    (join(&lines), refused(3, first, 0))
}

fn keyword_line_between(random: &mut Random) -> (Vec<u8>, Expectation) {
    let mut lines = draft::small(random).lines();
    let place = random.between(FIRST_KEYWORD, REMARKS_LINE);
    lines.insert(place, random.pick(&["", "PName=", "TTime=1", "[Remark]", "="]).as_bytes().to_vec());
    (join(&lines), refused(3, place, 0))
}

fn bad_remarks_mark(random: &mut Random) -> (Vec<u8>, Expectation) {
    let line = random.pick(&BAD_REMARKS_MARKS).as_bytes();
    with_line(random, REMARKS_LINE, line)
}

fn remarks_mark_missing(random: &mut Random) -> (Vec<u8>, Expectation) {
    let mut draft = draft::small(random);
    // A remark of the same spelling would take the place of the mark.
    draft.remarks.retain(|line| line != b"[Remarks]");
    let mut lines = draft.lines();
    lines.remove(REMARKS_LINE);
    (join(&lines), refused(3, REMARKS_LINE, 0))
}

fn early_bad_count_line(random: &mut Random) -> (Vec<u8>, Expectation) {
    let mut draft = draft::small(random);
    let at = random.below(draft.remarks.len() + 1);
    let line = random.pick(&["[QSORecords;", "[QSORecords;N]", "[QSORecords;Number of QSO records following]"]);
    draft.remarks.insert(at, line.as_bytes().to_vec());
    (draft.bytes(), refused(4, draft::FIRST_REMARK + at, 0))
}

/// Changes the line of some record with `change`, which must spoil it.
fn with_record_line(random: &mut Random, field: usize, change: fn(&mut Random, &mut Vec<u8>)) -> (Vec<u8>, Expectation) {
    let draft = draft::small_with_all_parts(random);
    let mut lines = draft.lines();
    let place = draft.first_record() + random.below(draft.records.len());
    change(random, &mut lines[place]);
    // The longest records have no room for another byte.
    lines[place].truncate(75);
    (join(&lines), refused(5, place, field))
}

fn semicolon_missing(random: &mut Random) -> (Vec<u8>, Expectation) {
    with_record_line(random, 0, |random, line| {
        let places: Vec<usize> = (0..line.len()).filter(|&at| line[at] == b';').collect();
        line.remove(*random.pick(&places));
    })
}

fn semicolon_extra(random: &mut Random) -> (Vec<u8>, Expectation) {
    with_record_line(random, 0, |random, line| {
        // Within the date, so that a full line loses a digit for the semicolon.
        let at = random.below(6);
        line.insert(at, b';');
        if line.len() <= 70 && random.chance(30) {
            line.extend_from_slice(b";;;");
        }
        if line.len() > 75 {
            line.remove(at + 1);
        }
    })
}

fn no_semicolon(random: &mut Random) -> (Vec<u8>, Expectation) {
    with_record_line(random, 0, |_, line| line.retain(|&b| b != b';'))
}

fn only_semicolons(random: &mut Random) -> (Vec<u8>, Expectation) {
    with_record_line(random, 1, |_, line| line.retain(|&b| b == b';'))
}

fn empty_record_line(random: &mut Random) -> (Vec<u8>, Expectation) {
    with_record_line(random, 0, |_, line| line.clear())
}

/// Puts one made record into some place of a log; its field is bad.
fn with_record(random: &mut Random, record: [Vec<u8>; 15], field: usize) -> (Vec<u8>, Expectation) {
    let mut draft = draft::small_with_all_parts(random);
    let chosen = random.below(draft.records.len());
    draft.records[chosen] = record;
    (draft.bytes(), refused(5, draft.first_record() + chosen, field))
}

fn error_record(random: &mut Random) -> [Vec<u8>; 15] {
    let mut record = fresh_record(random);
    draft::make_error(random, &mut record);
    record
}

fn error_with_points(random: &mut Random) -> (Vec<u8>, Expectation) {
    let mut record = error_record(random);
    record[10] = random.pick(&["1", "10", "999999"]).as_bytes().to_vec();
    with_record(random, record, 11)
}

fn error_without_points(random: &mut Random) -> (Vec<u8>, Expectation) {
    let mut record = error_record(random);
    record[10].clear();
    with_record(random, record, 11)
}

fn error_without_time(random: &mut Random) -> (Vec<u8>, Expectation) {
    let mut record = error_record(random);
    record[1].clear();
    with_record(random, record, 2)
}

fn error_with_bad_date(random: &mut Random) -> (Vec<u8>, Expectation) {
    let mut record = error_record(random);
    record[0] = random.pick(&["230229", " ", "0", "240300"]).as_bytes().to_vec();
    with_record(random, record, 1)
}

fn nearly_error_without_date(random: &mut Random) -> (Vec<u8>, Expectation) {
    let mut record = error_record(random);
    record[0].clear();
    record[2] = random.pick(&["ERRO", "ERROR1", "ERROR/P", "XERROR", "ERR0R"]).as_bytes().to_vec();
    with_record(random, record, 1)
}

fn with_count(draft: &Draft, count: usize) -> Vec<Vec<u8>> {
    let mut lines = draft.lines();
    lines[draft.count_line()] = format!("[QSORecords;{count}]").into_bytes();
    lines
}

fn one_record_missing(random: &mut Random) -> (Vec<u8>, Expectation) {
    let draft = draft::small(random);
    let lines = with_count(&draft, draft.records.len() + 1);
    (join(&lines), refused(6, lines.len(), 0))
}

fn no_records_at_all(random: &mut Random) -> (Vec<u8>, Expectation) {
    let mut draft = draft::small(random);
    draft.records.clear();
    let count = *random.pick(&[1, 2, 10, 999]);
    (join(&with_count(&draft, count)), refused(6, draft.first_record(), 0))
}

fn one_record_extra(random: &mut Random) -> (Vec<u8>, Expectation) {
    let draft = draft::small_with_all_parts(random);
    let lines = with_count(&draft, draft.records.len() - 1);
    (join(&lines), refused(6, lines.len() - 1, 0))
}

fn byte_after(random: &mut Random) -> (Vec<u8>, Expectation) {
    let lines = draft::small(random).lines();
    let mut bytes = join(&lines);
    bytes.push(*random.pick(&[0, 10, 13, 26, 32, b';', b'X', 127, 128, 255]));
    (bytes, refused(6, lines.len(), 0))
}

fn empty_line_after(random: &mut Random) -> (Vec<u8>, Expectation) {
    let lines = draft::small(random).lines();
    (join(&lines).into_iter().chain(*b"\r\n").collect(), refused(6, lines.len(), 0))
}

fn record_after_none(random: &mut Random) -> (Vec<u8>, Expectation) {
    let draft = draft::small_with_all_parts(random);
    (join(&with_count(&draft, 0)), refused(6, draft.first_record(), 0))
}

fn early_count_line(random: &mut Random) -> (Vec<u8>, Expectation) {
    let mut draft = draft::small_with_all_parts(random);
    let at = random.below(draft.remarks.len());
    draft.remarks.insert(at, b"[QSORecords;0]".to_vec());
    (draft.bytes(), refused(6, draft::FIRST_REMARK + at + 1, 0))
}

fn extra_with_bad_byte(random: &mut Random) -> (Vec<u8>, Expectation) {
    let lines = draft::small(random).lines();
    let mut bytes = join(&lines);
    let length = random.between(1, 200);
    let all: Vec<u8> = (0..=255).collect();
    bytes.extend(random.string(length, &all));
    (bytes, refused(6, lines.len(), 0))
}

fn some_line_fault(random: &mut Random) -> LineFault {
    random.pick(&LINE_FAULTS).1
}

fn bad_keyword_and_bad_end(random: &mut Random) -> (Vec<u8>, Expectation) {
    let mut lines = draft::small(random).lines();
    let place = random.between(0, REMARKS_LINE);
    lines[place][0] = b'x';
    let fault = some_line_fault(random);
    (with_line_fault(random, &lines, place, fault), refused(2, place, 0))
}

fn bad_argument_and_bad_end(random: &mut Random) -> (Vec<u8>, Expectation) {
    let (keyword, _, values) = *random.pick(ARGUMENTS);
    let mut draft = draft::small(random);
    draft.set(keyword, random.pick(values).as_bytes());
    let place = keyword_place(keyword);
    let fault = some_line_fault(random);
    (with_line_fault(random, &draft.lines(), place, fault), refused(2, place, 0))
}

fn bad_field_and_bad_end(random: &mut Random) -> (Vec<u8>, Expectation) {
    let mut draft = draft::small_with_all_parts(random);
    let (field, _, values) = *random.pick(FIELDS);
    let place = spoil_field(random, &mut draft, field, values);
    let fault = some_line_fault(random);
    (with_line_fault(random, &draft.lines(), place, fault), refused(2, place, 0))
}

fn bad_keyword_and_argument(random: &mut Random) -> (Vec<u8>, Expectation) {
    let (keyword, _, values) = *random.pick(ARGUMENTS);
    let mut draft = draft::small(random);
    draft.set(keyword, random.pick(values).as_bytes());
    let mut lines = draft.lines();
    let place = keyword_place(keyword);
    lines[place][4] = b'_';
    (join(&lines), refused(3, place, 0))
}

fn semicolons_and_bad_field(random: &mut Random) -> (Vec<u8>, Expectation) {
    let mut draft = draft::small_with_all_parts(random);
    let (field, _, values) = *random.pick(FIELDS);
    let place = spoil_field(random, &mut draft, field, values);
    let mut lines = draft.lines();
    let last = lines[place].iter().rposition(|&b| b == b';');
    lines[place].remove(last.expect("a record has semicolons"));
    lines[place].truncate(75);
    (join(&lines), refused(5, place, 0))
}

fn two_bad_fields(random: &mut Random) -> (Vec<u8>, Expectation) {
    let mut record = fresh_record(random);
    let (first, _, first_values) = *random.pick(FIELDS);
    let (second, _, second_values) = *random.pick(FIELDS);
    record[first - 1] = random.pick(first_values).as_bytes().to_vec();
    record[second - 1] = random.pick(second_values).as_bytes().to_vec();
    with_record(random, record, first.min(second))
}

fn two_bad_records(random: &mut Random) -> (Vec<u8>, Expectation) {
    let mut draft = draft::small_with_all_parts(random);
    let (one, _, one_values) = *random.pick(FIELDS);
    let (other, _, other_values) = *random.pick(FIELDS);
    let late = spoil_field(random, &mut draft, one, one_values);
    let before = late - draft.first_record();
    // A second bad record goes in right before the first one.
    let mut record = fresh_record(random);
    record[other - 1] = random.pick(other_values).as_bytes().to_vec();
    draft.records.insert(before, record);
    (draft.bytes(), refused(5, late, other))
}

fn no_date_and_bad_call(random: &mut Random) -> (Vec<u8>, Expectation) {
    let mut record = fresh_record(random);
    record[0].clear();
    record[2] = random.pick(&["", "ER", "error", "ERROR ", " ERROR", "DK"]).as_bytes().to_vec();
    with_record(random, record, 1)
}

fn bad_record_and_few(random: &mut Random) -> (Vec<u8>, Expectation) {
    let mut draft = draft::small_with_all_parts(random);
    let (field, _, values) = *random.pick(FIELDS);
    let place = spoil_field(random, &mut draft, field, values);
    (join(&with_count(&draft, draft.records.len() + 1)), refused(5, place, field))
}

/// A log with two bad values; which one is told is left to the judge.
pub fn two_faults(random: &mut Random) -> Vec<u8> {
    let mut draft = draft::small_with_all_parts(random);
    for _ in 0..2 {
        if random.chance(50) {
            let (keyword, _, values) = *random.pick(ARGUMENTS);
            draft.set(keyword, random.pick(values).as_bytes());
        } else {
            let (field, _, values) = *random.pick(FIELDS);
            let chosen = random.below(draft.records.len());
            draft.records[chosen][field - 1] = random.pick(values).as_bytes().to_vec();
        }
    }
    draft.bytes()
}

/// A text with one small change, which may or may not break its rule.
fn near_miss(random: &mut Random, text: &[u8]) -> Vec<u8> {
    let mut changed = text.to_vec();
    let byte = match random.below(4) {
        0 => *random.pick(b"AXYRSNDZ;/ "),
        1 => random.between(32, 127) as u8,
        _ => *random.pick(b"0123456789"),
    };
    let at = random.below(text.len() + 1);
    match random.below(5) {
        0 => changed.insert(at, byte),
        1 if at < text.len() => drop(changed.remove(at)),
        2 if at + 1 < text.len() => changed.swap(at, at + 1),
        _ if at < text.len() => changed[at] = byte,
        _ => changed.push(byte),
    }
    changed
}

type LineMaker = fn(&mut Random) -> (Vec<u8>, Option<u32>);

/// Record lines by themselves with something wrong, and the field that is told
/// of each, if its maker knows it.
pub const LINES: &[(&str, LineMaker)] = &[
    ("field", |random| {
        let (field, _, values) = *random.pick(FIELDS);
        let mut record = fresh_record(random);
        record[field - 1] = random.pick(values).as_bytes().to_vec();
        (record.join(&b';'), Some(field as u32))
    }),
    ("near-field", |random| {
        let mut record = fresh_record(random);
        let field = random.below(15);
        record[field] = near_miss(random, &record[field]);
        (record.join(&b';'), None)
    }),
    ("two-fields", |random| {
        let mut record = fresh_record(random);
        let first = random.pick(FIELDS);
        let second = random.pick(FIELDS);
        for (field, _, values) in [first, second] {
            record[field - 1] = random.pick(values).as_bytes().to_vec();
        }
        (record.join(&b';'), Some(first.0.min(second.0) as u32))
    }),
    ("empty", |_| (Vec::new(), Some(0))),
    ("semicolons-alone", |random| {
        let count = *random.pick(&[1, 13, 14, 15, 16, 28, 75, 300]);
        (vec![b';'; count], Some(if count == 14 { 1 } else { 0 }))
    }),
    ("semicolon-missing", |random| {
        let record = fresh_record(random);
        let kept = random.between(1, 14);
        (record[..kept].join(&b';'), Some(0))
    }),
    ("semicolon-extra", |random| {
        let mut line = fresh_record(random).join(&b';');
        for _ in 0..*random.pick(&[1, 1, 1, 2, 14]) {
            line.insert(random.below(line.len() + 1), b';');
        }
        (line, Some(0))
    }),
    ("byte-outside", |random| {
        let mut record = fresh_record(random);
        let field = random.below(15);
        let byte = *random.pick(&[0, 1, 9, 10, 13, 31, 128, 160, 187, 255]);
        let at = random.below(record[field].len() + 1);
        record[field].insert(at, byte);
        (record.join(&b';'), Some(field as u32 + 1))
    }),
    // The length is right, so that nothing but the byte can be wrong.
    ("exchange-byte-outside", |random| {
        let mut record = fresh_record(random);
        let length = random.between(1, 6);
        record[8] = random.string(length, b"AZ09 /\x7f");
        record[8][random.below(length)] = *random.pick(&[0, 1, 9, 10, 13, 31, 128, 160, 187, 255]);
        (record.join(&b';'), Some(9))
    }),
    // The first bad field is the first in the line, however it is bad.
    ("exchange-byte-outside-and-field", |random| {
        let mut record = fresh_record(random);
        let (field, _, values) = *random.pick(FIELDS);
        record[field - 1] = random.pick(values).as_bytes().to_vec();
        record[8] = vec![*random.pick(&[0, 9, 31, 128, 255])];
        (record.join(&b';'), Some(field.min(9) as u32))
    }),
    ("too-long", |random| {
        let mut record = fresh_record(random);
        let field = random.below(15);
        let more = *random.pick(&[76, 77, 200, 256, 65_536, 70_000]);
        let byte = *random.pick(b"0123456789A/ ");
        let mut text = record[field].clone();
        text.extend(vec![byte; more]);
        record[field] = text;
        (record.join(&b';'), Some(field as u32 + 1))
    }),
    ("far-behind-another", |random| {
        let front = *random.pick(&[256, 65_536]);
        let line = [vec![b'0'; front], fresh_record(random).join(&b';')].concat();
        (line, Some(1))
    }),
    ("end-left-on", |random| {
        let line = fresh_record(random).join(&b';');
        let end: &[u8] = *random.pick(&[&b"\r\n"[..], b"\n", b"\r", b" ", b"\0"]);
        ([line, end.to_vec()].concat(), Some(15))
    }),
    ("error-with-points", |random| {
        let mut record = fresh_record(random);
        draft::make_error(random, &mut record);
        record[10] = random.pick(&["1", "120", "999999", "00", ""]).as_bytes().to_vec();
        (record.join(&b';'), Some(11))
    }),
    ("no-date-but-nearly-error", |random| {
        let mut record = fresh_record(random);
        record[0].clear();
        record[2] = random.pick(&["ERROR1", "ERRO", "ERROR ", "error", "RROR", "ERR", ""]).as_bytes().to_vec();
        (record.join(&b';'), Some(1))
    }),
    ("noise", |random| {
        let length = random.below(90);
        (random.string(length, b"\x00\x0a\x0d\x1f \x7f\x80\xff;;;;;;;;;;0019NDARXaz/,"), None)
    }),
];

/// Two digits from 0 to a little beyond `most`.
fn about(random: &mut Random, most: usize) -> String {
    format!("{:02}", random.between(0, most + 2))
}

/// A log with one field of one record changed a little.
pub fn near_field(random: &mut Random) -> Vec<u8> {
    let mut draft = draft::small_with_all_parts(random);
    let chosen = random.below(draft.records.len());
    let field = random.below(15);
    let changed = match field {
        0 if random.chance(70) => {
            let year = random.below(100);
            let (month, day) = (about(random, 12), about(random, 31));
            format!("{year:02}{month}{day}").into_bytes()
        }
        1 if random.chance(70) => [about(random, 23), about(random, 59)].concat().into_bytes(),
        _ => near_miss(random, &draft.records[chosen][field]),
    };
    draft.records[chosen][field] = changed;
    draft.bytes()
}

/// A log with one forced argument changed a little.
pub fn near_argument(random: &mut Random) -> Vec<u8> {
    let mut draft = draft::small(random);
    let keyword = some_forced_keyword(random);
    let argument = draft.header[keyword_place(keyword) - FIRST_KEYWORD].clone();
    draft.set(keyword, &near_miss(random, &argument));
    if keyword == "TDate" && random.chance(70) {
        let mut date = || {
            let year = 1988 + random.below(104);
            format!("{year}{}{}", about(random, 12), about(random, 31))
        };
        let pair = [date(), date()].join(";");
        draft.set(keyword, pair.as_bytes());
    }
    draft.bytes()
}

/// A log with one keyword and its `=` changed a little, so that it may or may
/// not be the same word in another spelling.
pub fn near_keyword(random: &mut Random) -> Vec<u8> {
    let mut lines = draft::small(random).lines();
    let line = &mut lines[random.between(FIRST_KEYWORD, KEYWORDS.len())];
    for _ in 0..random.between(1, 3) {
        let at = random.below(6);
        line[at] = match random.below(4) {
            0 => line[at].wrapping_sub(32),
            1 => line[at].wrapping_add(32),
            _ => line[at] ^ 32,
        };
    }
    join(&lines)
}

/// A log with some line that is no record and no keyword changed a little.
pub fn near_line(random: &mut Random) -> Vec<u8> {
    let draft = draft::small(random);
    let mut lines = draft.lines();
    let place = *random.pick(&[0, REMARKS_LINE, draft.count_line(), draft.count_line()]);
    lines[place] = near_miss(random, &lines[place]);
    join(&lines)
}
