//! How many by Morse: "a count of credited records for each mode code and for a
//! blank mode, eleven numbers in all. They add up to the credited count
//! wherever totals are made or kept."

use reference::fields::is_mode;
use reference::generate::{Generator, Trial};
use reference::judging::{class, CREDITED, DUPLICATE, ERROR, VOID};
use reference::random::Random;
use reference::reading::LONGEST_LOG;
use reference::striking::strike_log;
use reference::writing::write_log;
use reference::{desk, judge, read, write, Totals, MODES};
use std::collections::BTreeSet;
use std::process::Command;

const SEED: u64 = 20240302;
const TRIALS: u64 = 3_000;

fn accepted() -> impl Iterator<Item = Trial> {
    let generator = Generator::new(SEED);
    let trials = (0..TRIALS).map(move |index| generator.trial(index));
    trials.filter(|trial| read(&trial.log).is_ok())
}

/// A log of these records behind the header of case 12.
fn log_of(records: &[String]) -> Vec<u8> {
    let spring = include_str!("../../../samples/spring.edi");
    let (head, _) = spring.split_once("[QSORecords;").unwrap();
    let lines: String = records.iter().map(|record| format!("{record}\r\n")).collect();
    format!("{head}[QSORecords;{}]\r\n{lines}", records.len()).into_bytes()
}

fn totals_of(log: &[u8]) -> Totals {
    judge(log, 999).unwrap().0
}

fn modes_of(log: &[u8]) -> [u64; 11] {
    totals_of(log).modes
}

/// The eleven numbers where only some are not 0: each by its place.
fn only(numbers: &[(usize, u64)]) -> [u64; 11] {
    let mut modes = [0; 11];
    numbers.iter().for_each(|&(place, number)| modes[place] = number);
    modes
}

/// The place of a blank mode, behind the ten codes.
const BLANK: usize = 10;

/// The mode and the class of each record. The modes are cut from the text
/// here, not taken from what reading tells.
fn modes_and_classes(log: &[u8]) -> Vec<(String, u8)> {
    let text = std::str::from_utf8(log).unwrap();
    let verdicts = judge(log, 999).unwrap().1;
    let lines: Vec<&str> = text.strip_suffix("\r\n").unwrap().split("\r\n").collect();
    let records = &lines[lines.len() - verdicts.len()..];
    let mode = |record: &str| record.split(';').nth(3).unwrap().to_string();
    records.iter().zip(verdicts).map(|(record, verdict)| (mode(record), class(verdict))).collect()
}

#[test]
fn there_are_eleven_modes() {
    let bytes = (0..=255).map(|byte| vec![byte]);
    let found: BTreeSet<Vec<u8>> = bytes.chain([Vec::new()]).filter(|text| is_mode(text)).collect();
    assert_eq!(found, MODES.iter().map(|mode| mode.as_bytes().to_vec()).collect());
    assert_eq!(MODES.concat(), "0123456789");
    assert_eq!(MODES[BLANK], "");
}

/// The two credited records have mode 1. So has the void one; the duplicate has
/// mode 2, and the ERROR none: these three count for no mode.
#[test]
fn case_12_in_whole() {
    let log = include_bytes!("../../../samples/spring.edi");
    assert_eq!(modes_of(log), only(&[(1, 2)]));
    let lines = "\
QSOS 2
POINTS 200
WWLS 1
EXCHANGES 0
DXCCS 2
TOTAL 700
MODE 0 0
MODE 1 2
MODE 2 0
MODE 3 0
MODE 4 0
MODE 5 0
MODE 6 0
MODE 7 0
MODE 8 0
MODE 9 0
MODE - 0
";
    assert_eq!(desk(log), lines);
}

/// With the first record struck the repeat by mode 2 is credited; written back
/// before, it has no points, and is void.
#[test]
fn case_13_moves_a_contact_to_another_mode() {
    let log = include_bytes!("../../../samples/spring.edi");
    let written = write(log, LONGEST_LOG).unwrap();
    assert_eq!(modes_of(&written), modes_of(log));
    let struck = [true, false, false, false, false];
    assert_eq!(modes_of(&strike_log(&read(log).unwrap(), &struck)), only(&[(1, 1), (2, 1)]));
    assert_eq!(modes_of(&strike_log(&read(&written).unwrap(), &struck)), only(&[(1, 1)]));
}

/// A blank is no 0.
#[test]
fn blank_modes_are_counted_apart() {
    let records = [
        "240302;1401;DK1AA;;59;001;59;004;;JO40AA;120;;N;N;".to_string(),
        "240302;1402;DK2AA;0;59;002;59;004;;JO40AA;120;;;;".to_string(),
        "240302;1403;DK3AA;;59;003;59;004;;JO40AA;120;;;;".to_string(),
        "240302;1404;DK4AA;9;59;004;59;004;;JO40AA;120;;;;".to_string(),
    ];
    let log = log_of(&records);
    assert_eq!(modes_of(&log), only(&[(0, 1), (9, 1), (BLANK, 2)]));
    let ends = "MODE 0 1\nMODE 1 0\nMODE 2 0\nMODE 3 0\nMODE 4 0\nMODE 5 0\nMODE 6 0\nMODE 7 0\nMODE 8 0\nMODE 9 1\nMODE - 2\n";
    assert!(desk(&log).ends_with(ends));
}

/// A contact in this mode and, of its mode or another, a void record, a
/// duplicate with points, one with a D alone, a broken second try and an ERROR.
fn all_classes(mode: &str, other: &str) -> Vec<String> {
    vec![
        format!("240302;1401;DK1AA;{other};59;001;;;;;0;;;;"),
        format!("240302;1402;DK1AA;{mode};59;002;59;004;A;JO40AA;7;N;N;N;"),
        format!("240302;1403;DK1AA;{other};59;003;59;004;B;JO41AA;8;N;N;N;"),
        format!("240302;1404;DK1AA;{other};59;004;59;004;B;JO41AA;0;N;N;N;D"),
        format!("240302;1405;DK1AA;{other};59;005;;;B;JO41AA;0;N;N;N;"),
        format!(";1406;ERROR;{other};59;006;;;B;JO41AA;0;N;N;N;D"),
    ]
}

#[test]
fn only_credited_records_count() {
    for (place, mode) in MODES.iter().enumerate() {
        for other in MODES {
            let log = log_of(&all_classes(mode, other));
            let classes: Vec<u8> = judge(&log, 999).unwrap().1.into_iter().map(class).collect();
            assert_eq!(classes, [VOID, CREDITED, DUPLICATE, DUPLICATE, VOID, ERROR]);
            assert_eq!(modes_of(&log), only(&[(place, 1)]), "{mode:?} {other:?}");
        }
    }
    let mut without_contact = all_classes("1", "2");
    without_contact.truncate(1);
    assert_eq!(modes_of(&log_of(&without_contact)), [0; 11]);
    assert_eq!(modes_of(&log_of(&[])), [0; 11]);
}

/// The mode of the record that is credited counts, whichever of its call that is.
#[test]
fn a_repeat_brings_its_own_mode_once_it_is_credited() {
    let record = |mode: &str| format!("240302;1401;DK1AA;{mode};59;001;59;004;;JO40AA;120;;;;");
    let log = log_of(&[record("2"), record("1"), record("")]);
    let log = read(&log).unwrap();
    for (struck, place) in [([false, false, false], 2), ([true, false, false], 1), ([true, true, false], BLANK)] {
        assert_eq!(modes_of(&strike_log(&log, &struck)), only(&[(place, 1)]));
    }
}

#[test]
fn a_full_log_in_each_mode() {
    for (place, mode) in MODES.iter().enumerate() {
        let record = |number| format!("240302;1401;DK{number:03};{mode};59;001;59;004;;JO40AA;1;;;;");
        let log = log_of(&(0..999).map(record).collect::<Vec<_>>());
        assert_eq!(modes_of(&log), only(&[(place, 999)]));
        let name = if mode.is_empty() { "-" } else { mode };
        assert!(desk(&log).contains(&format!("\nMODE {name} 999\n")));
        assert_eq!(desk(&log).matches(" 0\n").count(), 12, "exchanges, countries and ten modes");
    }
}

#[test]
fn they_add_up_to_the_credited_count() {
    for trial in accepted() {
        let totals = totals_of(&trial.log);
        assert_eq!(totals.modes.iter().sum::<u64>(), totals.credited, "{}", trial.tag);
        assert_eq!(desk(&trial.log).lines().count(), 17, "{}", trial.tag);
    }
}

#[test]
fn they_are_those_of_the_credited_lines() {
    let mut seen = BTreeSet::new();
    for trial in accepted() {
        let told = modes_and_classes(&trial.log);
        let number = |mode: &str| told.iter().filter(|(other, class)| other == mode && *class == CREDITED).count() as u64;
        assert_eq!(modes_of(&trial.log), MODES.map(number), "{}", trial.tag);
        if trial.tag == "valid/modes" {
            seen.extend(told);
        }
    }
    // Each mode in each class, in the logs that are made for it alone.
    assert_eq!(seen.len(), 11 * 4);
}

#[test]
fn full_logs_have_one_mode_or_all() {
    let mut seen = BTreeSet::new();
    for trial in accepted() {
        let modes = modes_of(&trial.log);
        match trial.tag.as_str() {
            "valid/full-of-one-mode" => assert!(modes.contains(&999), "{modes:?}"),
            "valid/full-of-all-modes" => assert!(modes.iter().all(|number| [90, 91].contains(number)), "{modes:?}"),
            _ => continue,
        }
        seen.insert(trial.tag);
    }
    assert_eq!(seen.len(), 2);
}

#[test]
fn writing_back_keeps_them() {
    for trial in accepted() {
        let written = write_log(&read(&trial.log).unwrap());
        if written.len() <= LONGEST_LOG {
            assert_eq!(modes_of(&written), modes_of(&trial.log), "{}", trial.tag);
        }
    }
}

/// Each struck contact leaves its mode, and each repeat that becomes credited
/// joins its own. Answers how many joined.
fn striking_holds(log: &[u8], struck: &[bool], name: &str) -> usize {
    let rest = strike_log(&read(log).unwrap(), struck);
    let before = modes_and_classes(log);
    let after = modes_and_classes(&rest);
    let mut wanted = modes_of(log).map(|number| number as i64);
    let place = |mode: &str| MODES.iter().position(|&other| other == mode).unwrap();
    let mut kept = after.iter();
    let mut joined = 0;
    for ((mode, class), &gone) in before.iter().zip(struck) {
        let still = if gone { None } else { kept.next() };
        assert!(gone || still.unwrap().0 == *mode, "{name}");
        let counts = still.is_some_and(|(_, class)| *class == CREDITED);
        let counted = *class == CREDITED;
        wanted[place(mode)] += i64::from(counts) - i64::from(counted);
        joined += usize::from(counts && !counted);
    }
    assert_eq!(modes_of(&rest).map(|number| number as i64), wanted, "{name} struck {struck:?}");
    assert_eq!(modes_of(&rest).iter().sum::<u64>(), totals_of(&rest).credited, "{name}");
    joined
}

/// Written back, a duplicate has no points: none joins, and no mode gains.
#[test]
fn striking_changes_them_as_the_classes_say() {
    let mut joined = 0;
    for (index, trial) in accepted().enumerate() {
        let mut random = Random::new(SEED + 1, index as u64);
        let log = read(&trial.log).unwrap();
        let percent = *random.pick(&[5, 30, 60, 95]);
        let struck: Vec<bool> = log.records.iter().map(|_| random.chance(percent)).collect();
        joined += striking_holds(&trial.log, &struck, &trial.tag);
        let written = write_log(&log);
        if written.len() <= LONGEST_LOG {
            assert_eq!(striking_holds(&written, &struck, &trial.tag), 0);
            let rest = modes_of(&strike_log(&read(&written).unwrap(), &struck));
            assert!(rest.iter().zip(modes_of(&written)).all(|(after, before)| *after <= before), "{}", trial.tag);
        }
    }
    assert!(joined > 500, "{joined}");
}

#[test]
fn a_refusal_has_one_line_and_zeros() {
    assert_eq!(Totals::default().modes, [0; 11]);
    assert_eq!(desk(b""), "REFUSED 2 1 0\n");
    let log = log_of(&all_classes("1", "2"));
    assert_eq!(desk(&log[..log.len() - 1]), "REFUSED 2 45 0\n");
    assert_eq!(judge(&log, 5).unwrap_err().number, 7);
}

/// What is left of the stream of trials.
struct Stream<'a>(&'a [u8]);

impl<'a> Stream<'a> {
    fn take(&mut self, length: usize) -> &'a [u8] {
        let (part, rest) = self.0.split_at(length);
        self.0 = rest;
        part
    }

    fn u32(&mut self) -> u32 {
        u32::from_le_bytes(self.take(4).try_into().unwrap())
    }

    fn u64(&mut self) -> u64 {
        u64::from_le_bytes(self.take(8).try_into().unwrap())
    }

    fn bytes(&mut self) -> &'a [u8] {
        let length = self.u32() as usize;
        self.take(length)
    }

    /// The twelve totals, and the modes behind them.
    fn sums(&mut self) -> (Vec<u64>, Vec<u64>) {
        ((0..12).map(|_| self.u64()).collect(), (0..11).map(|_| self.u64()).collect())
    }
}

fn sums_of(totals: &Totals) -> (Vec<u64>, Vec<u64>) {
    (totals.as_list().to_vec(), totals.modes.to_vec())
}

/// What the library is compared with has the eleven numbers of each log that is
/// judged, and eleven zeros for each that is refused, by a slice too short too;
/// and of each strike the eleven of what is left.
#[test]
fn the_stream_of_trials_carries_them() {
    let program = env!("CARGO_BIN_EXE_reference");
    let output = Command::new(program).args(["trials", "--count", "500", "--seed", "4"]).output().unwrap();
    let mut stream = Stream(&output.stdout);
    assert_eq!(stream.take(8), b"SQTRIAL5");
    assert_eq!((stream.u64(), stream.u32()), (4, 500));
    let mut refused = BTreeSet::new();
    let mut struck = 0;
    for index in 0..500 {
        assert_eq!(stream.u32(), index);
        stream.bytes();
        let log = stream.bytes();
        stream.u64();
        let room = stream.u32() as usize;
        stream.take(4 * 4); // the other sizes lent
        stream.take(5 * 4); // read
        stream.take(6 * 4 + 8); // view, and the bits of all keywords
        let number = stream.u32();
        stream.take(2 * 4);
        let sums = stream.sums();
        assert_eq!(sums, sums_of(&judge(log, room).map(|(totals, _)| totals).unwrap_or_default()));
        if number != 0 {
            assert_eq!(sums.1, [0; 11]);
            refused.insert(number);
        }
        stream.bytes();
        stream.take(3 * 4);
        stream.bytes();
        stream.take(3 * 4);
        stream.bytes();
        let changes = stream.bytes().len();
        stream.take(4 * changes);
        for _ in 0..stream.u32() {
            stream.bytes();
            stream.bytes();
            stream.take(4); // the size lent
            let number = stream.u32();
            stream.take(2 * 4);
            let (totals, verdicts) = judge(stream.bytes(), 999).unwrap_or_default();
            assert_eq!(stream.sums(), sums_of(&totals));
            assert_eq!(stream.bytes(), verdicts);
            let promoted = stream.u32();
            assert!(number == 0 || (totals, verdicts.len(), promoted) == (Totals::default(), 0, 0));
            struck += usize::from(number == 0 && totals.credited > 0);
        }
    }
    assert!(stream.0.is_empty());
    assert!(struck > 100, "{struck}");
    assert!(refused.contains(&7) && refused.len() > 4, "{refused:?}");
}
