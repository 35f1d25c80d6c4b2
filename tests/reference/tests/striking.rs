//! Striking records from an accepted log: what it is refused with, what is left,
//! and demand 3, about what it does to the other records.

use reference::generate::Generator;
use reference::judging::{CREDITED, DUPLICATE, VOID};
use reference::random::Random;
use reference::reading::LONGEST_LOG;
use reference::strikes;
use reference::striking::{places, strike_log, Striking};
use reference::writing::write_log;
use reference::{judge, read, strike, write, Refusal};
use std::collections::{BTreeMap, BTreeSet};

const SEED: u64 = 20240302;
const TRIALS: u64 = 3_000;

/// The log of case 12.
const SPRING: &[u8] = include_bytes!("../../../samples/spring.edi");

fn refused(number: u32) -> Result<Vec<u8>, Refusal> {
    Err(Refusal { number, line: 0, field: 0 })
}

fn trial_data(name: &str) -> Vec<u8> {
    std::fs::read(format!("{}/../../crates/trials/data/{name}", env!("CARGO_MANIFEST_DIR"))).unwrap()
}

/// Without the first record the fourth is credited, and the total is as before.
#[test]
fn case_13_is_struck_as_it_is() {
    let rest = strike(SPRING, &[1, 0, 0, 0, 0], LONGEST_LOG).unwrap();
    assert_eq!(rest, trial_data("13-struck.edi"));
    let (totals, verdicts) = judge(&rest, 4).unwrap();
    assert_eq!((totals.total, verdicts), (700, vec![96, 3, 0, 1]));
}

/// Written back first, the fourth has no points, and its D repeats nothing.
#[test]
fn case_13_is_struck_after_writing_back() {
    let written = write(SPRING, LONGEST_LOG).unwrap();
    let rest = strike(&written, &[1, 0, 0, 0, 0], LONGEST_LOG).unwrap();
    assert_eq!(rest, trial_data("13-written-struck.edi"));
    let (totals, verdicts) = judge(&rest, 4).unwrap();
    assert_eq!((totals.total, verdicts), (580, vec![96, 3, 1, 1]));
}

/// The log up to its count line, that line with this count, and these records.
fn spring_with(count: usize, kept: &[usize]) -> Vec<u8> {
    let spring = std::str::from_utf8(SPRING).unwrap();
    let (head, rest) = spring.split_once("[QSORecords;5]\r\n").unwrap();
    let records: Vec<&str> = rest.split_inclusive('\n').collect();
    let kept: String = kept.iter().map(|&at| records[at]).collect();
    format!("{head}[QSORecords;{count}]\r\n{kept}").into_bytes()
}

#[test]
fn none_struck_gives_the_log_itself() {
    assert_eq!(strike(SPRING, &[0; 5], SPRING.len()).unwrap(), SPRING);
    let old = include_bytes!("../../../samples/old-spelling.edi");
    assert_eq!(strike(old, &[0; 999], LONGEST_LOG).unwrap(), old);
}

#[test]
fn all_struck_leaves_a_log_without_records() {
    let rest = strike(SPRING, &[1; 5], LONGEST_LOG).unwrap();
    assert_eq!(rest, spring_with(0, &[]));
    assert_eq!(judge(&rest, 0).unwrap().0.total, 0);
}

/// Nothing is to be struck there, and nothing need be lent to say so.
#[test]
fn a_log_without_records_stays() {
    let log = spring_with(0, &[]);
    for struck in [&[][..], &[1], &[255; 1_000]] {
        assert_eq!(strike(&log, struck, log.len()).unwrap(), log);
    }
    assert_eq!(strike(&log, &[], log.len() - 1), refused(8));
}

#[test]
fn any_byte_but_0_strikes() {
    for byte in 1..=255 {
        let rest = strike(SPRING, &[0, byte, 0, byte, 0], LONGEST_LOG).unwrap();
        assert_eq!(rest, spring_with(3, &[0, 2, 4]), "{byte}");
    }
}

#[test]
fn bytes_behind_the_last_record_tell_nothing() {
    let wanted = spring_with(4, &[0, 1, 3, 4]);
    for behind in [&[][..], &[0], &[1], &[0, 0, 255], &[7; 994], &[1; 2_000]] {
        let struck = [&[0, 0, 1, 0, 0], behind].concat();
        assert_eq!(strike(SPRING, &struck, wanted.len()).unwrap(), wanted);
    }
}

/// The claims of the header stay too, though they are true no more.
#[test]
fn only_the_count_is_corrected() {
    let records: Vec<String> = (0..100).map(|at| format!("240302;1401;DK{at:02};;;;;;;;1;;;;\r\n")).collect();
    let (head, _) = std::str::from_utf8(SPRING).unwrap().split_once("[QSORecords;").unwrap();
    let log_with = |kept: usize| format!("{head} [QSORecords;7]\r\n[QSORecords;{kept}]\r\n{}", records[..kept].concat());
    let log = log_with(100).into_bytes();
    for kept in [100, 99, 11, 10, 9, 1, 0] {
        let struck: Vec<u8> = (0..100).map(|at| u8::from(at >= kept)).collect();
        let rest = strike(&log, &struck, log.len()).unwrap();
        assert_eq!(String::from_utf8(rest).unwrap(), log_with(kept));
    }
}

#[test]
fn a_slice_that_is_too_short_is_refused() {
    for length in 0..5 {
        assert_eq!(strike(SPRING, &vec![1; length], LONGEST_LOG), refused(7));
    }
    let rest = spring_with(4, &[1, 2, 3, 4]);
    for length in [0, 1, rest.len() - 1] {
        assert_eq!(strike(SPRING, &[1, 0, 0, 0, 0], length), refused(8));
    }
    assert!(strike(SPRING, &[1, 0, 0, 0, 0], rest.len()) == Ok(rest));
}

/// What reading refuses comes first, then 7, then 8.
#[test]
fn refusals_come_in_their_order() {
    assert_eq!(strike(SPRING, &[0; 4], 0), refused(7));
    assert_eq!(strike(SPRING, &[0; 5], 0), refused(8));
    let with = |edit: fn(&str) -> String| edit(std::str::from_utf8(SPRING).unwrap()).into_bytes();
    let at = |number, line, field| Err(Refusal { number, line, field });
    for (log, wanted) in [
        (vec![b'['; LONGEST_LOG + 1], refused(1)),
        (Vec::new(), at(2, 1, 0)),
        (with(|log| log.replace("PCall=", "PCal=")), at(3, 4, 0)),
        (with(|log| log.replace(";5]", ";05]")), at(4, 39, 0)),
        (with(|log| log.replace("OZ1BB;1", "OZ1B!;1")), at(5, 41, 3)),
        (with(|log| log.replace(";5]", ";6]")), at(6, 45, 0)),
        (with(|log| log.replace(";5]", ";4]")), at(6, 44, 0)),
    ] {
        for (struck, length) in [(&[][..], 0), (&[1; 999], 0), (&[], LONGEST_LOG), (&[0; 5], LONGEST_LOG)] {
            assert_eq!(strike(&log, struck, length), wanted);
        }
    }
}

/// How often each thing came about that the demand speaks of.
type Seen = BTreeMap<&'static str, usize>;

fn count(seen: &mut Seen, what: &'static str, times: usize) {
    *seen.entry(what).or_insert(0) += times;
}

fn demand_3_holds(bytes: &[u8], struck: &[bool], seen: &mut Seen, name: &str) {
    let log = read(bytes).unwrap();
    let before = judge(bytes, 999).unwrap();
    let striking = Striking::new(&log, &before, struck, &strike_log(&log, struck)).unwrap();
    assert_eq!(striking.fault(), None, "{name} struck {struck:?}");
    let classes = striking.classes();
    let turned = |into| classes.iter().filter(|&&classes| classes == (DUPLICATE, into)).count();
    assert_eq!(striking.promoted(), turned(CREDITED));
    count(seen, "a duplicate becomes credited", turned(CREDITED));
    count(seen, "a duplicate becomes void", turned(VOID));
    if striking.no_duplicate_claims_points() {
        let fall = before.0.total - striking.after().0.total;
        count(seen, "the total falls", usize::from(fall > 0));
        count(seen, "the total falls as far as it may", usize::from(fall > 0 && fall == striking.most_fall()));
    } else {
        count(seen, "the total rises", usize::from(striking.after().0.total > before.0.total));
    }
}

/// What is said against a strike of the first record that left these bytes.
fn fault_of(log: &[u8], rest: &[u8]) -> Option<String> {
    let (log, before) = (read(log).unwrap(), judge(log, 999).unwrap());
    match Striking::new(&log, &before, &[true, false, false, false, false], rest) {
        Ok(striking) => striking.fault(),
        Err(fault) => Some(fault),
    }
}

/// Wrong bytes in the place of what is left are noticed, each by its own part of
/// the demand.
#[test]
fn demand_3_is_seen_to_be_broken() {
    let written = write(SPRING, LONGEST_LOG).unwrap();
    let edit = |log: &[u8], old: &str, new: &str| {
        let text = std::str::from_utf8(log).unwrap();
        assert_eq!(text.matches(old).count(), 1, "{old}");
        text.replace(old, new).into_bytes()
    };
    let struck = |log: &[u8]| strike(log, &[1, 0, 0, 0, 0], LONGEST_LOG).unwrap();
    // It falls by 620, the most, and by one more if another point is lost.
    let lowest = edit(&struck(&written), "CWWLs=1;500;1", "CWWLs=1;0;1");
    assert_eq!(fault_of(&written, &lowest), None);
    for (log, rest, old, new, wanted) in [
        (SPRING, struck(SPRING), ";4]", ";5]", "what is left is refused"),
        (SPRING, struck(SPRING), "JO40BC;80;", "JO40BC;0;", "record 1 is of class 1 and should be of 0"),
        (SPRING, struck(SPRING), "JO40AA;120;", "JO40AA;0;", "record 3 is of class 1 and should be of 0"),
        (&written, struck(&written), "JO40AA;0;;;;D", "JO40AA;120;;;;D", "record 3 is of class 0 and should be of 1"),
        (&written, struck(&written), "CWWLs=1;500;1", "CWWLs=1;621;1", "the total was 700, is 701"),
        (&written, lowest, "JO40BC;80;", "JO40BC;79;", "the total was 700, is 79, and may fall by 620"),
    ] {
        let told = fault_of(log, &edit(&rest, old, new)).unwrap_or_default();
        assert!(told.starts_with(wanted), "{new}: {told}");
    }
    for log in [SPRING, &written] {
        assert_eq!(fault_of(log, &struck(log)), None);
        assert!(fault_of(log, log).unwrap().starts_with("4 records were kept, and 5 are left"));
    }
}

fn some_struck(random: &mut Random, records: usize) -> Vec<bool> {
    let percent = *random.pick(&[5, 30, 60, 95]);
    (0..records).map(|_| random.chance(percent)).collect()
}

/// Each accepted log is struck as it is, and as it is written back: there no
/// duplicate claims points.
#[test]
fn demand_3_holds_of_the_trials() {
    let generator = Generator::new(SEED);
    let mut seen = Seen::new();
    for index in 0..TRIALS {
        let trial = generator.trial(index);
        let Ok(log) = read(&trial.log) else { continue };
        let name = format!("index {index} {}", trial.tag);
        let mut random = Random::new(SEED + 1, index);
        let records = log.records.len();
        demand_3_holds(&trial.log, &some_struck(&mut random, records), &mut seen, &name);
        let written = write_log(&log);
        if written.len() <= LONGEST_LOG {
            demand_3_holds(&written, &some_struck(&mut random, records), &mut seen, &name);
        }
    }
    assert!(seen.len() == 5 && seen.values().all(|&times| times > 40), "{seen:?}");
}

/// Two calls with each pair of points and last field, and an ERROR; exchanges,
/// squares and marks are such that a change of class changes who is new.
const SORTS: [&str; 9] = [
    "240302;1401;DK1AA;;;;;;A;JO40AA;120;N;N;N;",
    "240302;1402;DK1AA;;;;;;B;JO41;70;;;N;D",
    "240302;1403;DK1AA;;;;;;A;JO41AA;0;N;N;N;",
    "240302;1404;DK1AA;;;;;;B;JO40;0;;;;D",
    "240302;1405;OZ1BB;;;;;;B;JO40BC;80;;N;;",
    "240302;1406;OZ1BB;;;;;;A;JO41BC;9;N;;N;D",
    "240302;1407;OZ1BB;;;;;;C;JO42;0;;;;",
    "240302;1408;OZ1BB;;;;;;A;JO40BC;0;N;N;N;D",
    ";1409;ERROR;;;;;;A;JO41;0;N;N;N;D",
];

/// The header of case 12 with bonuses and multipliers of all three kinds.
fn header() -> String {
    let spring = include_str!("../../../samples/spring.edi");
    let (head, _) = spring.split_once("[QSORecords;").unwrap();
    head.replace("CWWLs=9;500;1", "CWWLs=9;500;2").replace("CExcs=0;0;1", "CExcs=0;30;3").replace("CDXCs=0;0;1", "CDXCs=0;7;5")
}

fn log_of(header: &str, sorts: &[usize]) -> Vec<u8> {
    let records: String = sorts.iter().map(|&sort| format!("{}\r\n", SORTS[sort])).collect();
    format!("{header}[QSORecords;{}]\r\n{records}", sorts.len()).into_bytes()
}

/// Each list of four records of these sorts, with each set of them struck.
#[test]
fn demand_3_holds_of_every_short_log() {
    let header = header();
    let mut seen = Seen::new();
    for number in 0..SORTS.len().pow(4) {
        let sorts = [number % 9, number / 9 % 9, number / 81 % 9, number / 729];
        let log = log_of(&header, &sorts);
        for set in 0..16 {
            let struck: Vec<bool> = (0..4).map(|at| set >> at & 1 == 1).collect();
            demand_3_holds(&log, &struck, &mut seen, &format!("{sorts:?}"));
        }
    }
    assert!(seen.len() == 5 && seen.values().all(|&times| times > 1_000), "{seen:?}");
}

/// What the trials ask for, how they are answered, and which sizes are lent.
#[test]
fn strikes_of_the_trials_cover_what_can_happen() {
    let generator = Generator::new(SEED);
    let mut seen: BTreeMap<String, usize> = BTreeMap::new();
    let mut see = |what: &str, came: bool| *seen.entry(what.to_string()).or_insert(0) += usize::from(came);
    let (mut names, mut bytes): (BTreeSet<&str>, BTreeSet<u8>) = Default::default();
    for trial in (0..TRIALS).map(|index| generator.trial(index)) {
        let accepted = judge(&trial.log, 999).ok();
        for asked in &trial.strikes {
            names.insert(asked.name);
            let answer = strike(&trial.log, &asked.struck, asked.output_len);
            see(&format!("number {}", answer.as_ref().err().map_or(0, |refusal| refusal.number)), true);
            let Some(before) = &accepted else { continue };
            let records = before.1.len();
            bytes.extend(&asked.struck[..records.min(asked.struck.len())]);
            let smallest = strike(&trial.log, &vec![1; records], LONGEST_LOG).unwrap().len();
            see("too short in both", asked.struck.len() < records && asked.output_len < smallest);
            see("short by one", asked.struck.len() + 1 == records);
            see("longer by one", asked.struck.len() == records + 1);
            see("a byte behind that would strike", asked.struck.get(records..).is_some_and(|behind| behind.iter().any(|&byte| byte != 0)));
            let Some(struck) = places(&asked.struck, records) else { continue };
            let log = read(&trial.log).unwrap();
            let rest = strike_log(&log, &struck);
            see("room for one byte too few", asked.output_len + 1 == rest.len());
            see("room for the result alone", asked.output_len == rest.len());
            see("room for more", asked.output_len > rest.len());
            let striking = Striking::new(&log, before, &struck, &rest).unwrap();
            see("a duplicate becomes credited", striking.promoted() > 0);
            see("the total rises", striking.after().0.total > before.0.total);
            let digits = |records: usize| records.to_string().len();
            see("a count with fewer digits", digits(striking.classes().len()) < digits(records));
        }
    }
    assert_eq!(names, strikes::names().into_iter().collect());
    assert!(bytes.contains(&0) && bytes.contains(&1) && bytes.contains(&255) && bytes.len() > 8, "{bytes:?}");
    assert!(seen.len() == 19 && seen.values().all(|&times| times > 10), "{seen:?}");
}
