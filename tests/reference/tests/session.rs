//! A session: "takes a record line without CR LF, gives back (drops) the last
//! one, and starts anew. After each of these the kept classes and totals are
//! those that judging the records now present would give."

use reference::calls::{scripts, tags, Script, Step, Told};
use reference::faults::LINES;
use reference::generate::Generator;
use reference::judging::{Rate, Rates};
use reference::random::Random;
use reference::session::{brought, kept_of, possible_verdicts, read_line, Counts, Numbers, Settled, KEPT_BYTES, NUMBERS};
use reference::{judge, read, Lent, Refusal, Session};
use std::collections::BTreeSet;
use std::sync::OnceLock;

const SEED: u64 = 20240302;
/// As many as every kind of script comes up in.
const CALLS: usize = 9_500;

const ONE: Rate = Rate { bonus: 0, multiplier: 1 };
/// A square brings 500, as in case 12.
const RATES: Rates = Rates { squares: Rate { bonus: 500, multiplier: 1 }, exchanges: ONE, countries: ONE };

/// The records of case 12.
const SPRING: [&str; 5] = [
    "240302;1401;DK1AA;1;59;001;59;004;;JO40AA;120;;N;N;",
    "240302;1405;OZ1BB;1;59;002;59;010;;JO40BC;80;;;N;",
    "240302;1410;ERROR;;;003;;;;;0;;;;",
    "240302;1412;DK1AA;2;599;004;599;009;;JO40AA;120;;;;",
    "240302;1420;SM5CC;1;53;005;;;;;0;;;;",
];

fn session_of(lines: &[&str]) -> Session {
    let mut session = Session::start(RATES).unwrap();
    for line in lines {
        session.take(line.as_bytes(), Lent::ENOUGH).unwrap();
    }
    session
}

fn verdicts(session: &Session) -> Vec<u8> {
    session.judged().1
}

fn total(session: &Session) -> u64 {
    session.judged().0.total
}

fn refusal(number: u32, field: u32) -> Refusal {
    Refusal { number, line: 0, field }
}

/// They take a while, so that all tests share them.
fn scripts_made() -> impl Iterator<Item = &'static Script> {
    static MADE: OnceLock<Vec<Script>> = OnceLock::new();
    MADE.get_or_init(|| scripts(SEED, CALLS).collect()).iter()
}

#[test]
fn the_total_follows_each_record_and_falls_back_with_each() {
    let mut session = session_of(&[]);
    let totals = [0, 620, 700, 700, 700, 700];
    for (count, line) in SPRING.iter().enumerate() {
        assert_eq!(total(&session), totals[count]);
        session.take(line.as_bytes(), Lent::ENOUGH).unwrap();
    }
    assert_eq!(verdicts(&session), [96, 64, 3, 2, 1]);
    for count in (0..SPRING.len()).rev() {
        assert_eq!(total(&session), totals[count + 1]);
        session.give_back(Lent::ENOUGH).unwrap();
        assert_eq!(verdicts(&session), [96, 64, 3, 2, 1][..count]);
    }
    assert_eq!(total(&session), 0);
    assert_eq!(session.give_back(Lent::ENOUGH), Err(refusal(12, 0)));
}

/// A repeat whose contact was given back repeats nothing when it comes again.
#[test]
fn a_duplicate_is_credited_once_nothing_stands_before_it() {
    let [first, .., repeat, _] = SPRING;
    let mut session = session_of(&[first, repeat]);
    assert_eq!(verdicts(&session), [96, 2]);
    session.give_back(Lent::ENOUGH).unwrap();
    session.give_back(Lent::ENOUGH).unwrap();
    session.take(repeat.as_bytes(), Lent::ENOUGH).unwrap();
    assert_eq!(verdicts(&session), [32]);
    session.take(first.as_bytes(), Lent::ENOUGH).unwrap();
    assert_eq!(verdicts(&session), [32, 2]);
}

/// A square and an exchange are new again once the record that brought them is
/// given back.
#[test]
fn marks_are_given_back_too() {
    let worked = "240302;1401;DK1AA;1;59;001;59;004;A1;JO40AA;120;;;;";
    let other = "240302;1402;OZ1BB;1;59;002;59;004;A1;JO40XX;80;;;;";
    let mut session = session_of(&[worked, other]);
    assert_eq!(verdicts(&session), [48, 0]);
    session.give_back(Lent::ENOUGH).unwrap();
    session.give_back(Lent::ENOUGH).unwrap();
    session.take(other.as_bytes(), Lent::ENOUGH).unwrap();
    assert_eq!(verdicts(&session), [48]);
}

#[test]
fn a_broken_second_try_is_void_here_too() {
    let broken = "240302;1431;DK1AA;2;55A;002;52A;;;JO40AA;0;;;;";
    let claimed = "240302;1431;DK1AA;2;55A;002;52A;;;JO40AA;0;;;;D";
    assert_eq!(verdicts(&session_of(&[claimed, SPRING[0], broken, claimed])), [1, 96, 1, 2]);
}

#[test]
fn the_thousandth_is_refused_and_giving_back_frees_a_place() {
    let mut session = session_of(&[SPRING[4]; 998]);
    session.take(SPRING[0].as_bytes(), Lent::ENOUGH).unwrap();
    let before = session.memory();
    assert_eq!(session.take(SPRING[1].as_bytes(), Lent::ENOUGH), Err(refusal(11, 0)));
    assert_eq!(session.take(b"", Lent::ENOUGH), Err(refusal(5, 0)), "a bad record is told first");
    let large = Lent { verdicts: 100_000, kept: 100_000 };
    assert_eq!(session.take(SPRING[1].as_bytes(), large), Err(refusal(11, 0)), "whatever is lent");
    assert_eq!(session.memory(), before);
    session.give_back(Lent::ENOUGH).unwrap();
    session.take(SPRING[1].as_bytes(), Lent::ENOUGH).unwrap();
    assert_eq!(verdicts(&session)[998], 96);
    assert_eq!(session.take(SPRING[2].as_bytes(), Lent::ENOUGH), Err(refusal(11, 0)));
}

#[test]
fn a_start_is_refused_for_each_number_out_of_its_range() {
    let rates = |list: [u64; 6]| {
        let mut numbers = [0; NUMBERS];
        numbers[..6].copy_from_slice(&list);
        Numbers::from_list(numbers).rates
    };
    let start = |list: [u64; 6]| Session::start(rates(list)).map(|session| session.judged().0.total);
    for list in [[0, 1, 0, 1, 0, 1], [9_999, 99, 9_999, 99, 9_999, 99]] {
        assert_eq!(start(list), Ok(0));
        for place in 0..6 {
            let beyond: [u64; 2] = if place % 2 == 0 { [10_000, u32::MAX.into()] } else { [0, 100] };
            for number in beyond {
                let mut other = list;
                other[place] = number;
                assert_eq!(start(other), Err(refusal(4, 0)), "{other:?}");
            }
        }
    }
}

#[test]
fn slices_hold_a_record_exactly_when_they_have_its_bytes() {
    let mut session = session_of(&SPRING);
    let exact = Lent { verdicts: 6, kept: 6 * KEPT_BYTES };
    for short in [Lent { verdicts: 5, ..exact }, Lent { kept: 6 * KEPT_BYTES - 1, ..exact }, Lent { verdicts: 0, kept: 0 }] {
        assert_eq!(session.take(SPRING[1].as_bytes(), short), Err(refusal(11, 0)));
        assert_eq!(session.take(b";", short), Err(refusal(5, 0)));
    }
    session.take(SPRING[1].as_bytes(), exact).unwrap();
    for short in [Lent { verdicts: 5, ..exact }, Lent { kept: 6 * KEPT_BYTES - 1, ..exact }, Lent { verdicts: 0, kept: 0 }] {
        assert_eq!(session.give_back(short), Err(refusal(12, 0)));
    }
    session.give_back(exact).unwrap();
    assert_eq!(session.records(), 5);
}

#[test]
fn what_is_kept_of_a_record() {
    let line = b"240302;1405;OZ1BB/P;7;59;002;59;010;A 1;JO40BC;66051;;;N;";
    let wanted = b"OZ1BB/P\0\0\0\0\0\0\0JO40A 1\0\0\0\x03\x02\x017";
    assert_eq!(kept_of(line, 112), wanted);
    assert_eq!(kept_of(line, 2), [0; 28]);
    let bare = b"240302;1405;ABCDEFGHIJKLMN;;;;;;;;999999;;;;";
    assert_eq!(kept_of(bare, 0), b"ABCDEFGHIJKLMN\0\0\0\0\0\0\0\0\0\0\x3f\x42\x0f\0");
    let memory = session_of(&SPRING).memory();
    assert_eq!(memory.kept.len(), 5 * KEPT_BYTES);
    assert_eq!(memory.kept[..KEPT_BYTES], kept_of(SPRING[0].as_bytes(), 96)[..]);
    assert_eq!(memory.kept[2 * KEPT_BYTES..], [0; 3 * KEPT_BYTES]);
}

#[test]
fn bad_lines_are_told_by_the_field_their_makers_expect() {
    let mut seen = BTreeSet::new();
    for index in 0..40_000 {
        let mut random = Random::new(SEED, index);
        let (tag, make) = LINES[index as usize % LINES.len()];
        let (line, field) = make(&mut random);
        let answer = read_line(&line).map(drop);
        if let Some(field) = field {
            assert_eq!(answer, Err(refusal(5, field)), "{tag}: {}", line.escape_ascii());
        }
        seen.extend(answer.err());
    }
    let wanted: BTreeSet<Refusal> = (0..=15).map(|field| refusal(5, field)).collect();
    assert_eq!(seen, wanted);
}

/// Demand 2 over the session: its classes and totals are those of the log.
#[test]
fn a_log_played_record_by_record_is_judged_as_the_log() {
    let generator = Generator::new(SEED);
    let mut played = 0;
    for trial in (0..1_000).step_by(5).map(|index| generator.trial(index)) {
        let log = read(&trial.log).unwrap();
        let parts = |keyword: &str| -> Vec<u64> {
            let text = std::str::from_utf8(log.text(log.argument(keyword))).unwrap();
            text.split(';').map(|part| part.parse().unwrap()).collect()
        };
        let rate = |keyword: &str| Rate { bonus: parts(keyword)[1], multiplier: parts(keyword)[2] };
        let rates = Rates { squares: rate("CWWLs"), exchanges: rate("CExcs"), countries: rate("CDXCs") };
        let mut session = Session::start(rates).unwrap();
        for record in &log.records {
            session.take(&trial.log[record[0].start..record[14].end], Lent::ENOUGH).unwrap();
            played += 1;
        }
        let judged = session.judged();
        assert_eq!(judged, judge(&trial.log, 999).unwrap(), "{}", trial.tag);
        assert_eq!(session.memory().numbers.totals(), judged.0, "the numbers tell the same totals");
    }
    assert!(played > 5_000, "{played} records");
}

fn in_words(verdict: u8) -> String {
    let class = ["credited", "void", "duplicate", "error"][usize::from(verdict % 16)];
    let marks = [(16, ", new exchange"), (32, ", new square"), (64, ", new country")];
    let earned = marks.iter().filter(|(mark, _)| verdict & mark != 0).map(|(_, words)| *words);
    class.to_string() + &earned.collect::<String>()
}

/// What the example in C has to print of its sample is what is told here too.
#[test]
fn the_pad_shows_what_the_session_tells() {
    let rates = Rates { exchanges: Rate { bonus: 10, multiplier: 2 }, ..RATES };
    let mut session = Session::start(rates).unwrap();
    let mut shown = String::new();
    for line in include_str!("../../../samples/pad.txt").lines() {
        let records = session.records();
        let answer = if line == "-" { session.give_back(Lent::ENOUGH) } else { session.take(line.as_bytes(), Lent::ENOUGH) };
        shown += &match answer {
            Err(refusal) => format!("refused {}, line {}, field {}\n", refusal.number, refusal.line, refusal.field),
            Ok(()) if line == "-" => format!("record {records:<8} given back\n"),
            Ok(()) => format!("record {:<8} {}\n", records + 1, in_words(verdicts(&session)[records])),
        };
        shown += &format!("total           {}\n", total(&session));
    }
    // The words of a refusal are the example's own.
    let wanted = include_str!("../../../examples/pad.txt").lines().map(|line| line.split(':').next().unwrap());
    assert_eq!(shown.lines().collect::<Vec<_>>(), wanted.collect::<Vec<_>>());
}

/// `may_be` on both sides of each of its clauses.
#[test]
fn numbers_that_no_run_makes_are_known() {
    let made = session_of(&SPRING).memory().numbers;
    assert!(made.may_be());
    let list = made.as_list();
    let with = |changes: &[(usize, u64)]| {
        let mut list = list;
        for &(place, number) in changes {
            list[place] = number;
        }
        Numbers::from_list(list).may_be()
    };
    let (credited, voids, duplicates, points) = (6, 7, 8, 10);
    for bonus in [0, 2, 4] {
        assert!(with(&[(bonus, 9_999)]) && !with(&[(bonus, 10_000)]));
        assert!(with(&[(bonus + 1, 99)]) && !with(&[(bonus + 1, 100)]) && !with(&[(bonus + 1, 0)]));
    }
    assert!(with(&[(voids, 995)]) && !with(&[(voids, 996)]) && !with(&[(voids, u64::MAX - 3)]));
    assert!(with(&[(points, 2)]) && !with(&[(points, 1)]));
    assert!(with(&[(points, 1_999_998)]) && !with(&[(points, 1_999_999)]));
    for count in [11, 12, 13] {
        assert!(with(&[(count, 2)]) && !with(&[(count, 3)]));
    }
    assert!(with(&[(15, 1), (24, 1)]) && !with(&[(24, 1)]) && !with(&[(15, 1)]));
    assert!(!with(&[(15, 1 << 63), (24, (1 << 63) + 2)]));
    let none = [(credited, 0), (points, 0), (11, 0), (12, 0), (13, 0), (15, 0)];
    assert!(!with(&none));
    assert!(with(&[&none[..], &[(duplicates, 0)]].concat()));
    assert!(!Numbers::from_list([0; NUMBERS]).may_be());
}

/// The lines of a run of calls that makes these counts, which may be: each credited record has a call of its own, the first of them bring the
/// squares, exchanges and countries, and the points go to the first as far as they may.
fn lines_for(counts: &Counts) -> Vec<String> {
    let Counts { credited, voids, duplicates, errors, points, squares, exchanges, countries, modes } = *counts;
    let line = |call: String, mode: &str, exchange: String, locator: String, points: u64, country: &str| {
        format!("240302;1401;{call};{mode};59;001;59;004;{exchange};{locator};{points};;;{country};")
    };
    let first = |count: u64, i: u64, text: String| if i < count { text } else { String::new() };
    let codes = ["0", "1", "2", "3", "4", "5", "6", "7", "8", "9", ""];
    let mut left = codes.iter().zip(modes).flat_map(|(code, count)| (0..count).map(move |_| *code));
    let mut open = points;
    let mut lines = Vec::new();
    for i in 0..credited {
        let own = (open - (credited - i - 1)).min(999_999);
        open -= own;
        let square = format!("A{}{:02}", char::from(b'A' + (i / 100) as u8), i % 100);
        let country = if i < countries { "N" } else { "" };
        lines.push(line(format!("DL{i:03}"), left.next().unwrap(), first(exchanges, i, format!("{i:03}")), first(squares, i, square), own, country));
    }
    lines.extend((0..voids).map(|_| line("DL000".to_string(), "1", String::new(), String::new(), 0, "")));
    lines.extend((0..duplicates).map(|_| line("DL000".to_string(), "1", String::new(), String::new(), 1, "")));
    lines.extend((0..errors).map(|_| "240302;1410;ERROR;;;003;;;;;0;;;;".to_string()));
    lines
}

/// So many, in parts that are drawn by chance.
fn parted(random: &mut Random, all: u64, parts: &mut [u64]) {
    for _ in 0..all {
        parts[random.below(parts.len())] += 1;
    }
}

/// `may_be` is no wider than it has to be: whatever numbers it lets pass, some run of calls makes.
#[test]
fn numbers_that_may_be_are_made_by_a_run() {
    let mut passed = 0;
    for index in 0..300 {
        let random = &mut Random::new(SEED, index);
        let mut classes = [0; 4];
        let records = *random.pick(&[0, 1, 2, 5, 40, 999]);
        parted(random, records, &mut classes);
        let [credited, voids, duplicates, errors] = classes;
        let mut counts = Counts { credited, voids, duplicates, errors, ..Counts::NONE };
        parted(random, credited, &mut counts.modes);
        counts.points = match random.below(3) {
            0 => credited,
            1 => credited * 999_999,
            _ => random.between(credited as usize, credited as usize * 999_999) as u64,
        };
        for count in [&mut counts.squares, &mut counts.exchanges, &mut counts.countries] {
            *count = *random.pick(&[0, credited, credited / 2]);
        }
        let rates = Rates { squares: Rate { bonus: random.below(10_000) as u64, multiplier: random.between(1, 99) as u64 }, ..RATES };
        let numbers = Numbers { rates, counts };
        if !numbers.may_be() {
            assert!(duplicates > 0 && credited == 0);
            continue;
        }
        let mut session = Session::start(rates).unwrap();
        for line in lines_for(&counts) {
            session.take(line.as_bytes(), Lent::ENOUGH).unwrap();
        }
        assert_eq!(session.memory().numbers, numbers);
        passed += 1;
    }
    assert!(passed > 250);
}

/// What the slices have of the last record, taken off the numbers.
#[test]
fn giving_back_by_the_slices() {
    let session = session_of(&SPRING[..2]);
    let memory = session.memory();
    let before = session_of(&SPRING[..1]).memory().numbers;
    assert_eq!(memory.give_back(Lent::ENOUGH), Settled::Accepted(before));
    let altered = |verdict: u8, kept: Vec<u8>| {
        let mut memory = memory.clone();
        memory.verdicts[1] = verdict;
        memory.kept[KEPT_BYTES..].copy_from_slice(&kept);
        memory.give_back(Lent::ENOUGH)
    };
    let none = vec![0; KEPT_BYTES];
    let refused = Settled::Refused(refusal(12, 0));
    // There is no void, no duplicate, no error and no exchange to take off.
    for verdict in [1, 2, 3] {
        assert_eq!(altered(verdict, none.clone()), refused);
    }
    assert_eq!(altered(16, kept_of(SPRING[1].as_bytes(), 0)), refused);
    let points = |points: u64| format!("240302;1405;OZ1BB;1;59;002;59;010;;JO40BC;{points};;;N;");
    assert_eq!(altered(0, kept_of(points(201).as_bytes(), 0)), refused);
    assert!(matches!(altered(0, kept_of(points(200).as_bytes(), 0)), Settled::Accepted(numbers) if numbers.counts.points == 0));
    let other_mode = points(80).replacen(";1;", ";2;", 1);
    assert_eq!(altered(0, kept_of(other_mode.as_bytes(), 0)), refused);
    // No record has such a verdict, so many points or such a mode.
    for verdict in [4, 15, 17, 128] {
        assert_eq!(altered(verdict, kept_of(SPRING[1].as_bytes(), 0)), Settled::Open(1));
    }
    assert_eq!(altered(0, none), Settled::Open(1));
}

#[test]
fn every_verdict_is_a_possible_one() {
    let mut seen = BTreeSet::new();
    for script in scripts_made() {
        for (step, told) in &script.steps {
            let (Step::Take { line, .. }, Some(Told::All { wrote: Some(wrote), .. })) = (step, told) else { continue };
            assert!(possible_verdicts(line).contains(&wrote.verdict));
            assert!(brought(wrote.verdict, &wrote.kept).is_some());
            seen.insert(wrote.verdict);
        }
    }
    assert_eq!(seen, BTreeSet::from([0, 1, 2, 3, 16, 32, 48, 64, 80, 96, 112]));
}

#[test]
fn every_kind_of_script_comes_up() {
    let wanted = tags();
    let seen: BTreeSet<&str> = scripts_made().map(|script| script.tag).collect();
    assert_eq!(seen, wanted.iter().copied().collect());
    assert_eq!(seen.len(), wanted.len(), "no two tags are the same");
}

#[test]
fn as_many_calls_as_were_asked_for() {
    for calls in [0, 1, 7, 100, 700] {
        assert_eq!(scripts(SEED, calls).map(|script| script.calls()).sum::<usize>(), calls);
    }
}

#[test]
fn every_refusal_comes_up_and_changes_nothing() {
    let mut seen = BTreeSet::new();
    for script in scripts_made() {
        let mut before = Numbers::from_list([0; NUMBERS]);
        for (step, told) in &script.steps {
            if let Step::Alter { numbers, .. } = step {
                before = *numbers;
            }
            let Some(Told::All { answer, numbers, totals, wrote }) = told else { continue };
            if let Err(refusal) = answer {
                assert_eq!(*numbers, before);
                assert!(wrote.is_none());
                seen.insert((refusal.number, refusal.field));
            }
            assert_eq!(*totals, numbers.totals(), "the numbers tell the totals");
            before = *numbers;
        }
    }
    let mut wanted = BTreeSet::from([(4, 0), (11, 0), (12, 0)]);
    wanted.extend((0..=15).map(|field| (5, field)));
    assert_eq!(seen, wanted);
}

/// Giving back undoes taking, and a start leaves nothing behind.
#[test]
fn numbers_go_back_to_what_they_were() {
    let mut given_back = 0;
    for script in scripts_made().filter(|script| script.tag.starts_with("session/")) {
        let mut before: Vec<Numbers> = Vec::new();
        for (step, told) in &script.steps {
            let Some(Told::All { answer: Ok(()), numbers, .. }) = told else { continue };
            match step {
                Step::Start(_) => {
                    assert_eq!(numbers.counts, Counts::NONE);
                    before = vec![*numbers];
                }
                Step::Take { .. } => before.push(*numbers),
                Step::GiveBack { .. } => {
                    before.pop();
                    assert_eq!(before.last(), Some(numbers));
                    given_back += 1;
                }
                Step::Alter { .. } => unreachable!("altering is no call"),
            }
        }
    }
    assert!(given_back > 200, "{given_back}");
}

#[test]
fn sessions_fill_up() {
    let fulls: Vec<&Script> = scripts_made().filter(|script| script.calls() > 1_000).collect();
    assert_eq!(fulls.len(), 3);
    for script in fulls {
        let most = script.steps.iter().filter_map(|(_, told)| match told {
            Some(Told::All { wrote: Some(wrote), .. }) => Some(wrote.place + 1),
            _ => None,
        });
        assert_eq!(most.max(), Some(if script.tag == "session/one-place-too-few" { 998 } else { 999 }));
        let refused = |(_, told): &&(Step, Option<Told>)| matches!(told, Some(Told::All { answer: Err(Refusal { number: 11, .. }), .. }));
        assert!(script.steps.iter().filter(refused).count() > 2, "{}", script.tag);
    }
}

/// Nothing is told of memory that an open answer left, until it is altered.
#[test]
fn memory_is_altered_behind_an_open_answer() {
    for script in scripts_made() {
        for pair in script.steps.windows(2) {
            let open = matches!(pair[0].1, Some(Told::TakenAs { .. } | Told::GivenBackOrNot));
            assert!(!open || pair[1].1.is_none(), "{}", script.tag);
        }
    }
}

/// Memory that was altered gets every kind of answer.
#[test]
fn altered_memory_is_answered_in_every_way() {
    let mut seen = BTreeSet::new();
    for script in scripts_made().filter(|script| script.tag.starts_with("altered/")) {
        let mut altered = false;
        for (step, told) in &script.steps {
            altered = altered || told.is_none();
            let way = match (step, told) {
                _ if !altered => continue,
                (_, None) => continue,
                (Step::GiveBack { .. }, Some(Told::All { answer: Ok(()), .. })) => "given back",
                (_, Some(Told::All { answer: Ok(()), .. })) => continue,
                (_, Some(Told::All { answer: Err(refusal), totals, .. })) => match (refusal.number, totals.total) {
                    (11, _) => "11",
                    (12, 0) => "12",
                    (12, _) => "12 of numbers that may be",
                    (_, 0) => "no total",
                    _ => "a total",
                },
                (_, Some(Told::TakenAs { .. })) => "taken",
                (_, Some(Told::GivenBackOrNot)) => "open",
            };
            seen.insert(way);
        }
    }
    let wanted = ["given back", "11", "12", "12 of numbers that may be", "no total", "a total", "taken", "open"];
    assert_eq!(seen, BTreeSet::from(wanted));
}
