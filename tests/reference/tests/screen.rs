//! What the desk's verbs show, held to the texts that the desk is tried with, and
//! the trials that its programs are held to this by.

use reference::generate::Generator;
use reference::reading::LONGEST_LOG;
use reference::screen::{strike, table, write, Screen};
use reference::verbs::{Trial, Trials, Word, FEW_RECORDS, MOST_STRUCK, MOST_WORDS, STRUCK_OF_LARGE};
use reference::{desk, judge, read};
use std::collections::BTreeSet;
use std::fs;

/// The run of the check.
const COUNT: usize = 100;
const SEED: u64 = 1;

fn kept(path: &str) -> Vec<u8> {
    fs::read(format!("{}/../../{path}", env!("CARGO_MANIFEST_DIR"))).unwrap()
}

fn sample(name: &str) -> Vec<u8> {
    kept(&format!("samples/{name}.edi"))
}

fn numbers(numbers: impl IntoIterator<Item = usize>) -> BTreeSet<usize> {
    numbers.into_iter().collect()
}

/// A screen with nothing but this on standard error.
fn only_said(text: &str) -> Screen {
    Screen { output: Vec::new(), error: text.as_bytes().to_vec() }
}

/// What was said of the strikes, all that a reader can see of them.
fn said(log: &[u8], named: BTreeSet<usize>) -> String {
    String::from_utf8(strike(log, &named).error).unwrap()
}

#[test]
fn tables_are_those_of_the_samples() {
    for (name, path) in [
        ("spring", "crates/table/stdout"),
        ("modes", "tests/desk.d/modes-table.txt"),
        ("old-spelling", "tests/desk.d/old-spelling-table.txt"),
        ("second-tries", "tests/desk.d/second-tries-table.txt"),
    ] {
        assert_eq!(table(&sample(name)), Screen { output: kept(path), error: Vec::new() }, "{name}");
    }
}

/// The widest columns, and a new exchange without the rest.
#[test]
fn a_table_has_its_columns() {
    let spring = String::from_utf8(sample("spring")).unwrap();
    let log = spring.replace("OZ1BB", "OZ1BB/1234567P").replace("010;;JO40BC;80;;;N;", "010;A;;999999;;;;");
    let shown = String::from_utf8(table(log.as_bytes()).output).unwrap();
    assert_eq!(shown.lines().nth(1), Some("  2  1405  OZ1BB/1234567P  999999  credited   new exchange"));
    let none = log.split_once("[QSORecords;").unwrap().0.to_string() + "[QSORecords;0]\r\n";
    assert_eq!(table(none.as_bytes()), Screen::default());
}

#[test]
fn strikes_are_those_of_the_samples() {
    for (name, named) in [
        ("spring", numbers(1..=5)),
        ("modes", numbers(1..=10)),
        ("second-tries", numbers(1..=8)),
        ("old-spelling", numbers([1, 13, 25, 26])),
    ] {
        let wanted = kept(&format!("tests/desk.d/{name}-struck.txt"));
        assert_eq!(said(&sample(name), named), String::from_utf8(wanted).unwrap(), "{name}");
    }
}

/// Case 13, both ways.
#[test]
fn what_is_left_is_written_back() {
    let spring = sample("spring");
    let shown = strike(&spring, &numbers([1]));
    assert_eq!(shown.output, kept("crates/strike/stdout"));
    assert_eq!(shown.error, b"1 DK1AA credited, 120 points: struck; 4 DK1AA becomes credited; TOTAL 700 -> 700\n");
    assert!(desk(&shown.output).contains("\nTOTAL 700\n"));

    let written = write(&spring);
    assert_eq!(written, Screen { output: kept("crates/trials/data/12-written.edi"), error: Vec::new() });
    let shown = strike(&written.output, &numbers([1]));
    assert_eq!(shown.error, b"1 DK1AA credited, 120 points: struck; 4 DK1AA becomes void; TOTAL 700 -> 580\n");
    assert!(desk(&shown.output).contains("\nTOTAL 580\n"));
}

#[test]
fn a_record_that_is_not_there_is_told_alone() {
    let spring = sample("spring");
    for (named, missing) in [(numbers([17, 1]), 17), (numbers(1..=999), 6), (numbers([6]), 6), (numbers([999, 8]), 8)] {
        assert_eq!(strike(&spring, &named), only_said(&format!("desk: there is no record {missing}: the log has 5\n")));
    }
    let none = kept("crates/trials/data/02-no-records.edi");
    assert_eq!(strike(&none, &numbers([1])), only_said("desk: there is no record 1: the log has 0\n"));
}

/// Whatever is named.
#[test]
fn a_refused_log_is_told_alone() {
    let spring = String::from_utf8(sample("spring")).unwrap();
    for (log, wanted) in [
        (String::new(), "REFUSED 2 1 0\n"),
        ("[".repeat(LONGEST_LOG + 1), "REFUSED 1 0 0\n"),
        (spring.replace("OZ1BB;1;", "OZ1B!;1;"), "REFUSED 5 41 3\n"),
    ] {
        let log = log.as_bytes();
        for shown in [table(log), write(log), strike(log, &numbers([2])), strike(log, &numbers([999]))] {
            assert_eq!(shown, only_said(wanted));
        }
    }
}

/// It has a table, but cannot be written back: it would be too long by one byte,
/// and a record has more.
#[test]
fn a_log_that_grows_too_long_is_refused() {
    let generator = Generator::new(SEED);
    let trial = (0..).map(|index| generator.trial(index)).find(|trial| trial.tag == "valid/written-too-long").unwrap();
    assert!(!table(&trial.log).output.is_empty());
    assert_eq!(write(&trial.log), only_said("REFUSED 8 0 0\n"));
    assert_eq!(strike(&trial.log, &numbers([])), only_said("REFUSED 8 0 0\n"));
    assert!(strike(&trial.log, &numbers([1])).output.len() <= LONGEST_LOG);
    assert_eq!(times(&said(&trial.log, numbers([1])), " points: struck; "), 1);
}

fn times(text: &str, part: &str) -> usize {
    text.matches(part).count()
}

fn is_accepted(trial: &Trial) -> bool {
    read(&trial.log).is_ok()
}

fn records(trial: &Trial) -> usize {
    judge(&trial.log, 999).unwrap().1.len()
}

#[test]
fn words_say_what_they_name() {
    for trial in Trials::new(SEED).take(COUNT) {
        let texts: Vec<String> = trial.words.iter().map(|word| word.text()).collect();
        let mut named = BTreeSet::new();
        for text in &texts {
            let ends: Vec<usize> = text.split('-').map(|end| end.parse().unwrap()).collect();
            assert!(ends.len() <= 2 && ends[0] <= ends[ends.len() - 1], "{text}");
            named.extend(ends[0]..=ends[ends.len() - 1]);
        }
        assert_eq!(named, trial.named(), "{texts:?}");
        assert!((1..=999).contains(named.first().unwrap()) && *named.last().unwrap() <= 999, "{texts:?}");
    }
}

/// Striking judges a log once for each record, so that the check would take long.
#[test]
fn strikes_are_few() {
    let mut of_large = Vec::new();
    for trial in Trials::new(SEED).take(COUNT) {
        assert!(trial.words.len() <= MOST_WORDS);
        if !is_accepted(&trial) {
            continue;
        }
        let there = records(&trial);
        let named = trial.named();
        if named.iter().all(|&number| number <= there) {
            assert!(named.len() <= MOST_STRUCK, "{}", trial.tag);
            of_large.extend((there > FEW_RECORDS).then_some(named.len()));
        }
    }
    assert!(of_large.len() > 3, "{of_large:?}");
    assert!(of_large.iter().filter(|&&struck| struck > STRUCK_OF_LARGE).count() <= 1, "{of_large:?}");
}

/// All kinds of logs that keep the rules come, and soon.
#[test]
fn trials_are_of_all_kinds() {
    let seen: BTreeSet<String> = Trials::new(SEED).take(2 * COUNT).map(|trial| trial.tag).collect();
    for tag in Generator::new(SEED).tags().into_iter().filter(|tag| tag.starts_with("valid/")) {
        assert!(seen.contains(&tag), "{tag}");
    }
}

/// What is to be seen in the words of a trial.
fn seen_in_words(trial: &Trial) -> Vec<&'static str> {
    let named: usize = trial.words.iter().map(|word| word.last - word.first + 1).sum();
    let is_range_of_one = |word: &Word| word.dashed && word.first == word.last;
    let seen = [
        ("some named twice", named > trial.named().len()),
        ("not in their order", !trial.words.is_sorted_by_key(|word| word.first)),
        ("a range", trial.words.iter().any(|word| word.first < word.last)),
        ("a range of one", trial.words.iter().any(is_range_of_one)),
    ];
    seen.into_iter().filter(|seen| seen.1).map(|seen| seen.0).collect()
}

/// Of each thing that the programs can say there is some in the run of the check:
/// what does not come there is not tried.
#[test]
fn the_run_of_the_check_has_everything() {
    let (mut words, mut tables, mut struck) = (String::new(), String::new(), String::new());
    let mut accepted = 0;
    for trial in Trials::new(SEED).take(COUNT) {
        accepted += usize::from(is_accepted(&trial));
        words += &format!("{:?}", seen_in_words(&trial));
        tables += &String::from_utf8(table(&trial.log).output).unwrap();
        struck += &said(&trial.log, trial.named());
    }
    assert!((COUNT / 2..COUNT - 20).contains(&accepted), "{accepted}");
    for (shown, part, least) in [
        (&words, "some named twice", 10),
        (&words, "not in their order", 10),
        (&words, "a range\"", 10),
        (&words, "a range of one", 2),
        (&tables, "  credited\n", 10),
        (&tables, "  void\n", 10),
        (&tables, "  duplicate\n", 10),
        (&tables, "  error\n", 10),
        (&tables, "  credited   new exchange\n", 2),
        (&tables, "  credited   new exchange, new country\n", 2),
        (&tables, "  credited   new exchange, new square, new country\n", 10),
        (&tables, "\n999  ", 2),
        (&struck, " credited, ", 10),
        (&struck, " void, ", 10),
        (&struck, " duplicate, ", 10),
        (&struck, " error, ", 10),
        (&struck, " becomes credited; TOTAL ", 10),
        (&struck, " becomes void; TOTAL ", 5),
        (&struck, "desk: there is no record ", 5),
        (&struck, "REFUSED 5 ", 2),
        (&struck, "REFUSED 8 0 0\n", 1),
    ] {
        assert!(times(shown, part) >= least, "{part}: {}", times(shown, part));
    }
    let several = struck.lines().filter(|line| times(line, " becomes ") > 1).count();
    assert!(several > 0, "no strike changes two records");
}
