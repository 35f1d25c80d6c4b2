//! A broken second try is no repeat: "A record with 0 points and no D is void
//! even if its call was credited before; a duplicate needs points or a claimed
//! D."

use reference::judging::{class, CREDITED, DUPLICATE, ERROR, VOID};
use reference::striking::strike_log;
use reference::{desk, judge, read, write};

/// Worked by tropo, with a country claimed.
const WORKED: &str = "240302;1401;DK1AA;1;59;001;59;004;;JO40AA;120;;N;N;";
/// Tried again by aurora: half a report came back.
const BROKEN: &str = "240302;1431;DK1AA;2;55A;002;52A;;;JO40AA;0;;;;";

/// A log of these records behind the header of case 12: a square brings 500.
fn log_of(records: &[&str]) -> Vec<u8> {
    let spring = include_str!("../../../samples/spring.edi");
    let (head, _) = spring.split_once("[QSORecords;").unwrap();
    let lines: String = records.iter().map(|record| format!("{record}\r\n")).collect();
    format!("{head}[QSORecords;{}]\r\n{lines}", records.len()).into_bytes()
}

fn verdicts(records: &[&str]) -> Vec<u8> {
    judge(&log_of(records), 999).unwrap().1
}

fn classes(log: &[u8]) -> Vec<u8> {
    judge(log, 999).unwrap().1.into_iter().map(class).collect()
}

/// Demand 2: a log written back reads to the same judgement, and to write it
/// back once more changes nothing.
fn written(log: &[u8]) -> Vec<u8> {
    let written = write(log, 65_535).unwrap();
    assert_eq!(judge(&written, 999), judge(log, 999));
    assert_eq!(write(&written, written.len()).unwrap(), written);
    written
}

/// The records as they are written back.
fn records_written(records: &[&str]) -> Vec<String> {
    let text = String::from_utf8(written(&log_of(records))).unwrap();
    let (_, rest) = text.split_once("[QSORecords;").unwrap();
    rest.lines().skip(1).map(str::to_string).collect()
}

#[test]
fn an_aurora_try_is_void() {
    assert_eq!(verdicts(&[WORKED, BROKEN]), [96, 1]);
    assert_eq!(records_written(&[WORKED, BROKEN]), [WORKED, BROKEN]);
    let totals = judge(&log_of(&[WORKED, BROKEN]), 2).unwrap().0;
    assert_eq!(totals.as_list(), [1, 1, 0, 0, 120, 1, 0, 1, 500, 0, 0, 620]);
    let lines = "QSOS 1\nPOINTS 120\nWWLS 1\nEXCHANGES 0\nDXCCS 1\nTOTAL 620\n";
    let modes = "MODE 0 0\nMODE 1 1\nMODE 2 0\nMODE 3 0\nMODE 4 0\nMODE 5 0\nMODE 6 0\nMODE 7 0\nMODE 8 0\nMODE 9 0\nMODE - 0\n";
    assert_eq!(desk(&log_of(&[WORKED, BROKEN])), format!("{lines}{modes}"));
}

/// However often she tries, and whoever is worked in between.
#[test]
fn each_broken_try_is_void() {
    let other = "240302;1433;OZ1BB;1;59;003;59;010;;JO40BC;80;;;N;";
    let records = [WORKED, BROKEN, BROKEN, other, ";1434;ERROR;;;004;;;;;0;;;;", BROKEN];
    assert_eq!(verdicts(&records), [96, 1, 1, 64, 3, 1]);
    assert_eq!(records_written(&records), records);
}

#[test]
fn marks_claimed_on_a_broken_try_are_emptied() {
    let marked = "240302;1431;DK1AA;2;55A;002;52A;;A;JO41AA;0;N;N;N;";
    assert_eq!(verdicts(&[WORKED, marked]), [96, 1]);
    assert_eq!(records_written(&[WORKED, marked])[1], "240302;1431;DK1AA;2;55A;002;52A;;A;JO41AA;0;;;;");
}

#[test]
fn no_points_and_a_d_behind_a_credited_one_are_a_duplicate() {
    let repeat = "240302;1431;DK1AA;2;599;002;599;009;;JO40AA;0;;;;D";
    assert_eq!(verdicts(&[WORKED, repeat]), [96, 2]);
    assert_eq!(records_written(&[WORKED, repeat]), [WORKED, repeat]);
    let marked = "240302;1431;DK1AA;2;599;002;599;009;A;JO41AA;0;N;N;N;D";
    assert_eq!(verdicts(&[WORKED, marked]), [96, 2]);
    assert_eq!(records_written(&[WORKED, marked])[1], "240302;1431;DK1AA;2;599;002;599;009;A;JO41AA;0;;;;D");
}

#[test]
fn no_points_and_a_d_with_nothing_credited_before_are_void() {
    let claimed = "240302;1401;DK1AA;1;59;001;;;;;0;;;;D";
    let emptied = "240302;1401;DK1AA;1;59;001;;;;;0;;;;";
    assert_eq!(verdicts(&[claimed]), [1]);
    assert_eq!(records_written(&[claimed]), [emptied]);
    // Neither a void nor an ERROR nor another call is what it could repeat.
    let other = "240302;1401;DK1AA/P;1;59;001;59;004;;JO40AA;120;;N;N;";
    let records = [BROKEN, claimed, ";1402;ERROR;;;003;;;;;0;;;;D", claimed, other, claimed, WORKED];
    assert_eq!(verdicts(&records), [1, 1, 3, 1, 96, 1, 64]);
    let back = records_written(&records);
    assert_eq!((&back[1], &back[3], &back[5]), (&emptied.to_string(), &emptied.to_string(), &emptied.to_string()));
    assert_eq!(back[2], ";1402;ERROR;;;003;;;;;0;;;;");
    // Marks are emptied with the D.
    let marked = "240302;1401;DK1AA;1;59;001;;;A;JO40;0;N;N;N;D";
    assert_eq!(records_written(&[marked]), ["240302;1401;DK1AA;1;59;001;;;A;JO40;0;;;;"]);
}

#[test]
fn points_behind_a_credited_one_are_a_duplicate_with_and_without_a_d() {
    let plain = "240302;1431;DK1AA;2;599;002;599;009;A;JO41AA;7;N;N;N;";
    let claimed = "240302;1431;DK1AA;2;599;002;599;009;A;JO41AA;7;N;N;N;D";
    let back = "240302;1431;DK1AA;2;599;002;599;009;A;JO41AA;0;;;;D";
    assert_eq!(verdicts(&[WORKED, plain, claimed]), [96, 2, 2]);
    assert_eq!(records_written(&[WORKED, plain, claimed]), [WORKED, back, back]);
}

/// The claimed D decides only where no points are claimed.
#[test]
fn points_with_nothing_credited_before_are_credited_with_and_without_a_d() {
    let claimed = "240302;1401;DK1AA;1;59;001;59;004;;JO40AA;120;;N;N;D";
    for first in [WORKED, claimed] {
        assert_eq!(verdicts(&[BROKEN, first, BROKEN]), [1, 96, 1]);
        assert_eq!(records_written(&[BROKEN, first, BROKEN]), [BROKEN, WORKED, BROKEN]);
    }
}

/// Were a try that brought nothing to count, the real contact would be lost.
#[test]
fn nothing_void_makes_a_later_one_a_duplicate() {
    let claimed = "240302;1431;DK1AA;2;55A;002;52A;;;JO40AA;0;;;;D";
    assert_eq!(verdicts(&[BROKEN, WORKED]), [1, 96]);
    assert_eq!(verdicts(&[claimed, WORKED]), [1, 96]);
    assert_eq!(verdicts(&[claimed, BROKEN, claimed, WORKED, claimed, BROKEN]), [1, 1, 1, 96, 2, 1]);
    records_written(&[claimed, BROKEN, claimed, WORKED, claimed, BROKEN]);
}

/// A square and an exchange that only void records and duplicates had are new.
#[test]
fn nothing_void_makes_a_square_or_an_exchange_old() {
    let records = [
        WORKED,
        "240302;1431;DK1AA;2;55A;002;52A;;A;JO41AA;0;N;N;N;",
        "240302;1432;DK1AA;2;55A;003;52A;;B;JO42AA;0;N;N;N;D",
        "240302;1433;SM5CC;2;55A;004;52A;;C;JO43AA;0;N;N;N;D",
        "240302;1434;OZ1BB;1;59;005;59;010;A;JO41;80;;;;",
        "240302;1435;OZ2BB;1;59;006;59;010;B;JO42;80;;;;",
        "240302;1436;OZ3BB;1;59;007;59;010;C;JO43;80;;;;",
    ];
    assert_eq!(verdicts(&records), [96, 1, 2, 1, 48, 48, 48]);
    records_written(&records);
}

/// Striking takes away what a claimed D needs.
#[test]
fn a_claimed_d_is_void_once_the_credited_one_is_struck() {
    let repeat = "240302;1431;DK1AA;2;599;002;599;009;;JO40AA;0;;;;D";
    let log = log_of(&[WORKED, BROKEN, repeat]);
    assert_eq!(classes(&log), [CREDITED, VOID, DUPLICATE]);
    for log in [written(&log), log] {
        let rest = strike_log(&read(&log).unwrap(), &[true, false, false]);
        assert_eq!(classes(&rest), [VOID, VOID]);
        let text = String::from_utf8(written(&rest)).unwrap();
        assert!(text.ends_with(&format!("{BROKEN}\r\n240302;1431;DK1AA;2;599;002;599;009;;JO40AA;0;;;;\r\n")));
    }
}

/// Points and last field of a record; ERROR in the place of points is its call.
const CLAIMS: [(&str, &str); 6] = [("7", ""), ("7", "D"), ("0", ""), ("0", "D"), ("ERROR", ""), ("ERROR", "D")];

fn record_with((points, last): (&str, &str)) -> String {
    match points {
        "ERROR" => format!(";1401;ERROR;;;;;;A;JO40;0;N;N;N;{last}"),
        _ => format!("240302;1401;DK1AA;;;;;;A;JO40;{points};N;N;N;{last}"),
    }
}

/// Where all records but ERROR have one call, the first that claims points is
/// credited, and no other.
fn classes_wanted(claims: &[(&str, &str)]) -> Vec<u8> {
    let first = claims.iter().position(|&(points, _)| points == "7").unwrap_or(claims.len());
    let wanted = |(at, &claim): (usize, &(&str, &str))| match claim {
        ("ERROR", _) => ERROR,
        ("7", _) if at == first => CREDITED,
        ("7", _) => DUPLICATE,
        (_, "D") if at > first => DUPLICATE,
        _ => VOID,
    };
    claims.iter().enumerate().map(wanted).collect()
}

#[test]
fn every_order_of_claims_of_one_call() {
    for number in 0..CLAIMS.len().pow(5) {
        let claims: Vec<(&str, &str)> = (0..5).map(|at| CLAIMS[number / CLAIMS.len().pow(at) % CLAIMS.len()]).collect();
        let records: Vec<String> = claims.iter().map(|&claim| record_with(claim)).collect();
        let log = log_of(&records.iter().map(String::as_str).collect::<Vec<_>>());
        assert_eq!(classes(&log), classes_wanted(&claims), "{claims:?}");
        let text = String::from_utf8(written(&log)).unwrap();
        for (line, class) in text.lines().skip(39).zip(classes_wanted(&claims)) {
            let end = match class {
                CREDITED => "A;JO40;7;N;N;N;",
                DUPLICATE => "A;JO40;0;;;;D",
                _ => "A;JO40;0;;;;",
            };
            assert!(line.ends_with(end), "{claims:?} {line}");
        }
    }
}
