//! What the trials cover, and what holds of every one of them.

use reference::chewing::Outcome;
use reference::faults::Expectation;
use reference::generate::{Generator, Trial, MOST_CHANGES};
use reference::judging::{class, CREDITED, DUPLICATE, ERROR, VOID};
use reference::mending::{mend_text, COUNT_SET, RETURN_PUT};
use reference::reading::{KEYWORDS, LONGEST_LOG};
use reference::writing::write_log;
use reference::{judge, mend, read, view, write, Mended, Refusal, Rooms};
use std::collections::{BTreeMap, BTreeSet};

const SEED: u64 = 20240302;
const TRIALS: u64 = 3_000;

fn trials(count: u64) -> impl Iterator<Item = Trial> {
    let generator = Generator::new(SEED);
    (0..count).map(move |index| generator.trial(index))
}

fn accepted(count: u64) -> impl Iterator<Item = Trial> {
    trials(count).filter(|trial| read(&trial.log).is_ok())
}

#[test]
fn every_tag_comes_up() {
    let tags = Generator::new(SEED).tags();
    let wanted: BTreeSet<String> = tags.iter().cloned().collect();
    assert_eq!(wanted.len(), tags.len(), "no two tags are the same");
    let seen: BTreeSet<String> = trials(TRIALS).map(|trial| trial.tag).collect();
    assert_eq!(seen, wanted);
}

#[test]
fn answers_are_those_the_makers_expect() {
    // Other seeds too: a maker that is wrong once in a thousand should show.
    for seed in [SEED, 1, 2, 3, u64::MAX] {
        let generator = Generator::new(seed);
        for index in 0..TRIALS {
            let trial = generator.trial(index);
            let answer = read(&trial.log).err();
            let place = format!("seed {seed} index {index} {}", trial.tag);
            match trial.expectation {
                Expectation::Accepted => assert_eq!(answer, None, "{place}"),
                Expectation::Refused { number, line, field } => {
                    assert_eq!(answer, Some(Refusal { number, line, field }), "{place}")
                }
                Expectation::Open => {}
            }
        }
    }
}

#[test]
fn every_refusal_number_comes_up() {
    let mut seen = BTreeSet::new();
    for trial in trials(TRIALS) {
        seen.extend(read(&trial.log).err().map(|refusal| refusal.number));
        seen.extend(view(&trial.log, trial.keyword as usize).err().map(|refusal| refusal.number));
        seen.extend(judge(&trial.log, trial.verdicts_len).err().map(|refusal| refusal.number));
        seen.extend(write(&trial.log, trial.output_len).err().map(|refusal| refusal.number));
        seen.extend(mend(&trial.log, trial.rooms).err().map(|refusal| refusal.number));
    }
    assert_eq!(seen, (1..=10).collect());
}

#[test]
fn every_verdict_comes_up() {
    let mut seen = BTreeSet::new();
    for trial in accepted(TRIALS) {
        seen.extend(judge(&trial.log, 999).unwrap().1);
    }
    let credited = [0, 16, 32, 48, 64, 80, 96, 112];
    assert_eq!(seen, credited.into_iter().chain([1, 2, 3]).collect());
}

/// The records of a log that are no errors: each with its call, whether it
/// claims points, whether it claims a D, and its class.
fn tries(bytes: &[u8]) -> Vec<(Vec<u8>, bool, bool, u8)> {
    let log = read(bytes).unwrap();
    let verdicts = judge(bytes, 999).unwrap().1;
    let told = log.records.iter().zip(verdicts).map(|(record, verdict)| {
        let text = |field: usize| log.text(record[field - 1]);
        (text(3).to_vec(), text(11) != b"0", text(15) == b"D", class(verdict))
    });
    told.filter(|told| told.3 != ERROR).collect()
}

#[test]
fn every_claim_comes_up_with_and_without_something_to_repeat() {
    let mut seen = BTreeMap::new();
    for trial in accepted(TRIALS) {
        let mut credited = BTreeSet::new();
        for (call, points, duplicate, class) in tries(&trial.log) {
            let repeats = credited.contains(&call);
            let wanted = match (points, duplicate, repeats) {
                (true, _, false) => CREDITED,
                (true, _, true) => DUPLICATE,
                (false, true, true) => DUPLICATE,
                (false, _, _) => VOID,
            };
            assert_eq!(class, wanted, "{}", trial.tag);
            *seen.entry((points, duplicate, repeats)).or_insert(0) += 1;
            if class == CREDITED {
                credited.insert(call);
            }
        }
    }
    assert!(seen.len() == 8 && seen.values().all(|&times| times > 1_000), "{seen:?}");
}

/// Not only in the large logs that are made for it.
#[test]
fn second_tries_come_in_every_order() {
    let mut seen = BTreeSet::new();
    for trial in trials(TRIALS).filter(|trial| trial.tag == "valid/second-tries") {
        let mut of_call: BTreeMap<Vec<u8>, Vec<(bool, bool)>> = BTreeMap::new();
        for (call, points, duplicate, _) in tries(&trial.log) {
            of_call.entry(call).or_default().push((points, duplicate));
        }
        for claims in of_call.values() {
            seen.extend(claims.windows(3).map(<[_]>::to_vec));
        }
    }
    assert_eq!(seen.len(), 64);
}

#[test]
fn open_trials_go_both_ways() {
    let open: Vec<bool> = trials(TRIALS)
        .filter(|trial| trial.expectation == Expectation::Open)
        .map(|trial| read(&trial.log).is_ok())
        .collect();
    let good = open.iter().filter(|&&answer| answer).count();
    assert!(good * 20 > open.len() && good < open.len(), "{good} of {}", open.len());
}

#[test]
fn trials_are_repeatable() {
    let whole: Vec<Vec<u8>> = trials(40).map(|trial| trial.log).collect();
    let generator = Generator::new(SEED);
    for index in (0..40).rev() {
        assert_eq!(generator.trial(index).log, whole[index as usize]);
    }
    assert_ne!(Generator::new(SEED + 1).trial(0).log, whole[0]);
}

#[test]
fn the_greatest_total_is_reached() {
    let greatest = accepted(TRIALS).map(|trial| judge(&trial.log, 999).unwrap().0.total).max();
    assert_eq!(greatest, Some(998_404_684_715_196));
}

#[test]
fn the_limits_of_length_are_met() {
    let mut read_at_limit = false;
    let mut written_at_limit = false;
    let mut written_too_long = false;
    for trial in accepted(TRIALS) {
        let written = write_log(&read(&trial.log).unwrap());
        read_at_limit |= trial.log.len() == LONGEST_LOG;
        written_at_limit |= written.len() == LONGEST_LOG;
        if written.len() == LONGEST_LOG + 1 {
            written_too_long = true;
            let refusal = Refusal { number: 8, line: 0, field: 0 };
            assert_eq!(write(&trial.log, 70_000), Err(refusal));
        }
    }
    assert!(read_at_limit && written_at_limit && written_too_long);
}

#[test]
fn classes_add_up() {
    for trial in accepted(TRIALS) {
        let (totals, verdicts) = judge(&trial.log, 999).unwrap();
        let sum = totals.credited + totals.voids + totals.duplicates + totals.errors;
        assert_eq!(sum, verdicts.len() as u64);
        assert_eq!(verdicts.len(), read(&trial.log).unwrap().records.len());
    }
}

#[test]
fn writing_back_keeps_the_judgement_and_rests() {
    for trial in accepted(TRIALS) {
        let log = read(&trial.log).unwrap();
        let written = write_log(&log);
        if written.len() > LONGEST_LOG {
            continue;
        }
        assert_eq!(judge(&written, 999), judge(&trial.log, 999), "{}", trial.tag);
        assert_eq!(write(&written, written.len()).unwrap(), written, "{}", trial.tag);
    }
}

#[test]
fn every_keyword_comes_up_in_both_spellings() {
    let mut listed = BTreeSet::new();
    let mut respelt = BTreeSet::new();
    let mut counts = BTreeSet::new();
    for trial in accepted(TRIALS) {
        let log = read(&trial.log).unwrap();
        counts.insert(log.respelt());
        for place in 0..KEYWORDS.len() {
            let set = if log.is_listed(place) { &mut listed } else { &mut respelt };
            set.insert(place);
        }
    }
    assert_eq!((listed.len(), respelt.len()), (36, 36));
    assert!([0, 1, 2, 5, 36].iter().all(|count| counts.contains(count)), "{counts:?}");
}

/// The log with each keyword in the listed spelling.
fn in_listed_spelling(bytes: &[u8]) -> Vec<u8> {
    let mut listed = bytes.to_vec();
    for (keyword, name) in read(bytes).unwrap().keywords.iter().zip(KEYWORDS) {
        listed[keyword.start..keyword.end].copy_from_slice(name.as_bytes());
    }
    listed
}

#[test]
fn spelling_changes_no_answer_but_its_own() {
    for trial in accepted(TRIALS).filter(|trial| read(&trial.log).unwrap().respelt() > 0) {
        let listed = in_listed_spelling(&trial.log);
        assert_eq!(read(&listed).unwrap().respelt(), 0, "{}", trial.tag);
        assert_eq!(judge(&trial.log, trial.verdicts_len), judge(&listed, trial.verdicts_len), "{}", trial.tag);
        assert_eq!(write(&trial.log, trial.output_len), write(&listed, trial.output_len), "{}", trial.tag);
        let written = write_log(&read(&trial.log).unwrap());
        if written.len() <= LONGEST_LOG {
            assert_eq!(read(&written).unwrap().respelt(), 0, "{}", trial.tag);
        }
    }
}

#[test]
fn lent_sizes_decide_at_their_bounds() {
    for trial in accepted(400) {
        let records = read(&trial.log).unwrap().records.len();
        assert!(judge(&trial.log, records).is_ok());
        if records > 0 {
            assert_eq!(judge(&trial.log, records - 1).unwrap_err().number, 7);
        }
        if let Ok(written) = write(&trial.log, LONGEST_LOG) {
            assert!(write(&trial.log, written.len()).is_ok());
            assert_eq!(write(&trial.log, written.len() - 1).unwrap_err().number, 8);
        }
    }
}

const PLENTY: Rooms = Rooms { out: LONGEST_LOG, kinds: MOST_CHANGES, lines: MOST_CHANGES };

#[test]
fn mending_comes_out_as_the_makers_expect() {
    for seed in [SEED, 1, 2, 3, u64::MAX] {
        let generator = Generator::new(seed);
        for index in 0..TRIALS {
            let trial = generator.trial(index);
            let answer = mend(&trial.log, PLENTY).map(|mended| mended.text);
            let place = format!("seed {seed} index {index} {}", trial.tag);
            match trial.outcome {
                Outcome::Restored(log) => assert!(answer == Ok(log), "{place}"),
                Outcome::Refused(refusal) => assert_eq!(answer.err(), Some(refusal), "{place}"),
                Outcome::Open => {}
            }
        }
    }
}

fn chewed(count: u64) -> impl Iterator<Item = Trial> {
    trials(count).filter(|trial| trial.tag.starts_with("chewed/"))
}

#[test]
fn most_chewed_logs_can_be_mended_and_every_kind_is_common() {
    let answers: Vec<_> = chewed(TRIALS).map(|trial| mend(&trial.log, PLENTY)).collect();
    let mended: Vec<&Mended> = answers.iter().flatten().collect();
    assert!(mended.len() * 2 > answers.len(), "{} of {}", mended.len(), answers.len());
    assert!(mended.len() * 10 < answers.len() * 9, "{} of {}", mended.len(), answers.len());
    let mut logs_with = BTreeMap::new();
    for log in &mended {
        let kinds: BTreeSet<u8> = log.changes.iter().map(|change| change.kind).collect();
        kinds.into_iter().for_each(|kind| *logs_with.entry(kind).or_insert(0) += 1);
    }
    assert!((RETURN_PUT..=COUNT_SET).all(|kind| logs_with[&kind] * 4 > mended.len()), "{logs_with:?} of {}", mended.len());
}

#[test]
fn every_two_kinds_that_can_meet_on_a_line_do() {
    let mut seen = BTreeSet::new();
    for trial in trials(TRIALS) {
        let changes = mend(&trial.log, PLENTY).map(|mended| mended.changes).unwrap_or_default();
        let meeting = changes.windows(2).filter(|pair| pair[0].line == pair[1].line);
        seen.extend(meeting.map(|pair| (pair[0].kind, pair[1].kind)));
    }
    assert_eq!(seen, [(1, 3), (1, 4), (2, 3), (2, 4)].into_iter().collect());
}

#[test]
fn open_chewed_logs_go_both_ways() {
    let open = chewed(TRIALS).filter(|trial| trial.outcome == Outcome::Open);
    let (good, bad): (Vec<_>, Vec<_>) = open.map(|trial| mend(&trial.log, PLENTY)).partition(Result::is_ok);
    assert!(good.len() * 6 > bad.len(), "{} and {}", good.len(), bad.len());
}

/// All but 6: once the count is set no record is missing and none too many.
#[test]
fn mended_logs_are_refused_by_every_number_that_there_can_be() {
    let numbers: BTreeSet<u32> = trials(TRIALS).filter_map(|trial| mend(&trial.log, PLENTY).err()).map(|refusal| refusal.number).collect();
    assert_eq!(numbers, (1..=5).collect());
}

#[test]
fn the_sizes_lent_for_mending_are_short_in_every_way() {
    let mut seen = BTreeMap::new();
    for trial in chewed(TRIALS) {
        let Ok(mended) = mend(&trial.log, PLENTY) else { continue };
        let (length, changes) = (mended.text.len(), mended.changes.len());
        let short = (trial.rooms.kinds < changes, trial.rooms.lines < changes, trial.rooms.out < length);
        *seen.entry(short).or_insert(0) += 1;
        let wanted = match short {
            (true, _, _) | (_, true, _) => Some(Refusal { number: 10, line: 0, field: 0 }),
            (_, _, true) => Some(Refusal { number: 8, line: 0, field: 0 }),
            _ => None,
        };
        assert_eq!(mend(&trial.log, trial.rooms).err(), wanted);
    }
    assert_eq!(seen.len(), 8, "{seen:?}");
    assert!(seen[&(false, false, false)] * 2 > seen.values().sum::<usize>(), "{seen:?}");
}

#[test]
fn an_accepted_log_is_mended_by_doing_nothing() {
    for trial in accepted(TRIALS) {
        let none = Rooms { out: trial.log.len(), kinds: 0, lines: 0 };
        let wanted = Mended { text: trial.log.clone(), changes: Vec::new() };
        assert!(mend(&trial.log, none) == Ok(wanted), "{}", trial.tag);
    }
}

#[test]
fn mending_twice_does_no_more() {
    for trial in trials(TRIALS) {
        let mended = mend_text(&trial.log);
        assert!(mend_text(&mended.text) == Mended { text: mended.text, changes: Vec::new() }, "{}", trial.tag);
    }
}

#[test]
fn lists_are_in_order_and_within_their_bounds() {
    let line_feeds = |text: &[u8]| text.iter().filter(|&&b| b == b'\n').count();
    let mut longest = 0;
    for trial in trials(TRIALS) {
        let mended = mend_text(&trial.log);
        let open = trial.log.last().is_some_and(|&b| b != b'\n');
        let lines = line_feeds(&mended.text);
        assert_eq!(lines, line_feeds(&trial.log) + usize::from(open), "{}", trial.tag);
        let list: Vec<(u32, u8)> = mended.changes.iter().map(|change| (change.line, change.kind)).collect();
        assert!(list.windows(2).all(|pair| pair[0] < pair[1]), "{}", trial.tag);
        assert!(mended.changes.iter().all(|change| (1..=lines as u32).contains(&change.line)), "{}", trial.tag);
        if let Ok(log) = read(&mended.text) {
            let records = log.records.len();
            let remarks = lines - records - 39;
            assert!(list.len() <= 40 + remarks + 2 * records && list.len() <= MOST_CHANGES, "{}", trial.tag);
            longest = longest.max(list.len());
        }
    }
    assert!(longest > 31_000, "{longest}");
}

#[test]
fn mending_meets_the_limit_from_both_sides() {
    let mut seen = BTreeSet::new();
    for trial in chewed(TRIALS) {
        let length = mend_text(&trial.log).text.len();
        for limit in [LONGEST_LOG, LONGEST_LOG + 1] {
            if length == limit && trial.log.len() < limit {
                seen.insert(("grows to", limit));
            }
            if trial.log.len() == limit && length < limit {
                seen.insert(("shrinks from", limit));
            }
        }
    }
    assert_eq!(seen.len(), 4, "{seen:?}");
}
