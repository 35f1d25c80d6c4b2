//! Scripts of calls on a session, with what each call is answered and what lies
//! in the caller's memory after it. Script `index` of `seed` is the same on every
//! machine.

use crate::draft;
use crate::faults;
use crate::judging::{Rate, Rates, Totals};
use crate::random::Random;
use crate::reading::Refusal;
use crate::session::{kept_of, possible_verdicts, Counts, Lent, Memory, Numbers, Session, Settled, KEPT_BYTES, MOST_RECORDS, NUMBERS};
use crate::values;

/// One thing that is done in a script. All but the first are calls.
#[derive(Clone, Debug)]
pub enum Step {
    /// The caller sets the numbers, and some bytes of the slices.
    Alter { numbers: Numbers, writes: Vec<Write> },
    Start([u32; 6]),
    /// `behind` is what lies in memory behind the line, and no part of it.
    Take { line: Vec<u8>, behind: Vec<u8>, lent: Lent },
    GiveBack { lent: Lent },
}

#[derive(Clone, Copy, Debug, PartialEq, Eq)]
pub enum Slice {
    Verdicts,
    Kept,
}

#[derive(Clone, Debug)]
pub struct Write {
    pub slice: Slice,
    pub at: usize,
    pub bytes: Vec<u8>,
}

/// What is known of a call.
#[derive(Clone, Debug)]
pub enum Told {
    /// Everything: the answer, the numbers and totals afterwards, and what was
    /// written at which place.
    All { answer: Result<(), Refusal>, numbers: Numbers, totals: Totals, wrote: Option<Wrote> },
    /// The record is taken, with one of these verdicts; these bytes are kept of it
    /// if that makes it a credited one.
    TakenAs { place: usize, verdicts: Vec<u8>, kept: Vec<u8> },
    /// Some record is given back, or 12 is told.
    GivenBackOrNot,
}

#[derive(Clone, Debug)]
pub struct Wrote {
    pub place: usize,
    pub verdict: u8,
    pub kept: Vec<u8>,
}

pub struct Script {
    pub tag: &'static str,
    /// How long the slices are. A call may be lent less of them.
    pub room: Lent,
    pub steps: Vec<(Step, Option<Told>)>,
}

impl Script {
    pub fn calls(&self) -> usize {
        self.steps.iter().filter(|(_, told)| told.is_some()).count()
    }
}

/// What the slices have in them at first.
pub fn filling(at: usize) -> u8 {
    0xA5 ^ (at.wrapping_mul(29) as u8)
}

/// Writes a script by playing it.
struct Player<'a> {
    random: &'a mut Random,
    room: Lent,
    memory: Memory,
    /// Where the memory is what a run of calls made: the session so made.
    session: Option<Session>,
    /// What was answered last is open, so that the memory has to be altered before
    /// the next call, with this to write where a record was taken.
    open: Option<Vec<Write>>,
    steps: Vec<(Step, Option<Told>)>,
    pools: Pools,
}

/// Where the parts of lines are drawn from, so that they come again.
struct Pools {
    calls: Vec<Vec<u8>>,
    exchanges: Vec<Vec<u8>>,
    locators: Vec<Vec<u8>>,
    /// How many of a hundred records are errors, and void.
    errors: usize,
    voids: usize,
}

/// Calls and exchanges that differ at their ends alone.
pub const CALLS_ALIKE: [&str; 7] = ["OZ1ABCDE/12345", "OZ1ABCDE/12346", "OZ1ABCDE/1234", "OZ1ABCDE", "OZ1ABCDE/", "OZ1ABCD", "DL/OZ1ABCDE/PM"];
pub const EXCHANGES_ALIKE: [&str; 6] = ["ABCD", "ABCDE", "ABCDF", "ABCDEF", "ABCDEG", "ABC"];

fn pools(random: &mut Random, calls: usize) -> Pools {
    let call = |random: &mut Random| match random.below(4) {
        0 => values::call_alike(random),
        1 => random.pick(&CALLS_ALIKE).as_bytes().to_vec(),
        2 => values::short_call(random),
        _ => values::call(random),
    };
    let exchange = |random: &mut Random| match random.below(3) {
        0 => random.pick(&EXCHANGES_ALIKE).as_bytes().to_vec(),
        _ => values::exchange(random),
    };
    let others = random.between(1, calls.min(40));
    Pools {
        calls: (0..calls).map(|_| call(random)).collect(),
        exchanges: (0..others).map(|_| exchange(random)).collect(),
        locators: (0..others).map(|_| values::locator(random)).collect(),
        errors: *random.pick(&[0, 5, 20]),
        voids: *random.pick(&[0, 10, 40]),
    }
}

fn good_line(random: &mut Random, pools: &Pools) -> Vec<u8> {
    let call = random.pick(&pools.calls).clone();
    let mut record = draft::plain_record(random, &call, false);
    if random.chance(60) {
        record[8] = random.pick(&pools.exchanges).clone();
    }
    if random.chance(60) {
        record[9] = random.pick(&pools.locators).clone();
    }
    if random.chance(pools.errors) {
        draft::make_error(random, &mut record);
    } else if random.chance(pools.voids) {
        record[10] = b"0".to_vec();
    }
    record.join(&b';')
}

/// Bytes that would go on with a line, if anyone looked at them.
const BEHIND: [&str; 7] = ["", ";", ";;;;;;;;;;;;;;", "0", "D", "N;N;N;D", "\r\n240302;1401;DK1AA;1;59;001;59;004;;JO40AA;120;;N;N;"];

/// A line with something wrong, and what lies behind it.
fn bad_line(random: &mut Random) -> (Vec<u8>, Vec<u8>) {
    if random.chance(15) {
        // A good one that ends too early: what is behind it in memory would make it good.
        let line = draft::plain_record(random, b"DK1AA", false).join(&b';');
        let (front, back) = line.split_at(random.below(line.len()));
        return (front.to_vec(), back.to_vec());
    }
    let (_, make) = random.pick(faults::LINES);
    (make(random).0, random.pick(&BEHIND).as_bytes().to_vec())
}

const LEAST: [u32; 6] = [0, 1, 0, 1, 0, 1];
const MOST: [u32; 6] = [9_999, 99, 9_999, 99, 9_999, 99];

fn good_start(random: &mut Random) -> [u32; 6] {
    match random.below(8) {
        0 => LEAST,
        1 => MOST,
        _ => {
            let mut declared = LEAST;
            for (place, number) in declared.iter_mut().enumerate() {
                *number = random.between(LEAST[place] as usize, MOST[place] as usize) as u32;
            }
            declared
        }
    }
}

/// One of the six is out of its range, or more.
fn bad_start(random: &mut Random) -> [u32; 6] {
    let mut declared = good_start(random);
    for _ in 0..*random.pick(&[1, 1, 1, 2, 6]) {
        let place = random.below(6);
        declared[place] = match place % 2 {
            0 => *random.pick(&[10_000, 10_001, 65_536, 99_999, 1 << 31, u32::MAX]),
            _ => *random.pick(&[0, 0, 100, 101, 255, 256, 257, 65_537, 1 << 31, u32::MAX]),
        };
    }
    declared
}

fn rates_of(declared: [u32; 6]) -> Rates {
    let rate = |at: usize| Rate { bonus: declared[at].into(), multiplier: declared[at + 1].into() };
    Rates { squares: rate(0), exchanges: rate(2), countries: rate(4) }
}

impl Player<'_> {
    fn new(random: &mut Random, room: Lent, calls: usize) -> Player<'_> {
        let nothing = Rate { bonus: 0, multiplier: 0 };
        let rates = Rates { squares: nothing, exchanges: nothing, countries: nothing };
        let memory = Memory {
            numbers: Numbers { rates, counts: Counts::NONE },
            verdicts: (0..room.verdicts).map(filling).collect(),
            kept: (0..room.kept).map(filling).collect(),
        };
        let pools = pools(random, calls);
        Player { random, room, memory, session: None, open: None, steps: Vec::new(), pools }
    }

    fn records(&self) -> usize {
        self.session.as_ref().map_or(0, Session::records)
    }

    fn note(&mut self, step: Step, answer: Result<(), Refusal>, wrote: Option<Wrote>) {
        assert!(self.open.is_none(), "the memory is not known");
        let numbers = self.memory.numbers;
        let totals = self.session.as_ref().map_or(numbers.totals(), |session| session.judged().0);
        self.steps.push((step, Some(Told::All { answer, numbers, totals, wrote })));
    }

    fn start(&mut self, declared: [u32; 6]) {
        let answer = Session::start(rates_of(declared));
        if let Ok(session) = &answer {
            self.memory.numbers = session.memory().numbers;
            self.session = Some(session.clone());
        }
        self.note(Step::Start(declared), answer.map(drop), None);
    }

    /// Notes a call whose answer is open, and what makes the memory known again.
    fn note_open(&mut self, step: Step, told: Told, restoring: Vec<Write>) {
        self.steps.push((step, Some(told)));
        self.open = Some(restoring);
    }

    fn take(&mut self, line: Vec<u8>, behind: Vec<u8>, lent: Lent) {
        let step = Step::Take { line: line.clone(), behind, lent };
        let Some(session) = &mut self.session else {
            match self.memory.take(&line, lent) {
                Settled::Refused(refusal) => self.note(step, Err(refusal), None),
                Settled::TakenAt(place) => {
                    let (verdicts, kept) = (possible_verdicts(&line), kept_of(&line, 0));
                    let from = place * KEPT_BYTES;
                    let restoring = vec![
                        Write { slice: Slice::Verdicts, at: place, bytes: vec![self.memory.verdicts[place]] },
                        Write { slice: Slice::Kept, at: from, bytes: self.memory.kept[from..from + KEPT_BYTES].to_vec() },
                    ];
                    self.note_open(step, Told::TakenAs { place, verdicts, kept }, restoring);
                }
                settled => unreachable!("taking a record is {settled:?}"),
            }
            return;
        };
        let answer = session.take(&line, lent);
        let wrote = answer.is_ok().then(|| {
            let made = session.memory();
            let place = session.records() - 1;
            let kept = made.kept[place * KEPT_BYTES..].to_vec();
            self.memory.numbers = made.numbers;
            self.memory.verdicts[place] = made.verdicts[place];
            self.memory.kept[place * KEPT_BYTES..][..KEPT_BYTES].copy_from_slice(&kept);
            Wrote { place, verdict: made.verdicts[place], kept }
        });
        self.note(step, answer, wrote);
    }

    fn give_back(&mut self, lent: Lent) {
        let step = Step::GiveBack { lent };
        let Some(session) = &mut self.session else {
            let answer = match self.memory.give_back(lent) {
                Settled::Refused(refusal) => Err(refusal),
                Settled::Accepted(numbers) => {
                    self.memory.numbers = numbers;
                    Ok(())
                }
                _ => return self.note_open(step, Told::GivenBackOrNot, Vec::new()),
            };
            return self.note(step, answer, None);
        };
        let answer = session.give_back(lent);
        if answer.is_ok() {
            self.memory.numbers = session.memory().numbers;
        }
        self.note(step, answer, None);
    }

    fn take_good(&mut self, lent: Lent) {
        let line = good_line(self.random, &self.pools);
        let behind = self.random.pick(&BEHIND).as_bytes().to_vec();
        self.take(line, behind, lent);
    }

    /// At times the line is good after all.
    fn take_bad(&mut self) {
        let (line, behind) = bad_line(self.random);
        self.take(line, behind, self.room);
    }

    /// A good start and some records.
    fn play_in(&mut self, records: usize) {
        let declared = good_start(self.random);
        self.start(declared);
        for _ in 0..records {
            self.take_good(self.room);
        }
    }

    fn alter(&mut self, numbers: Numbers, writes: Vec<Write>) {
        let mut all = self.open.take().unwrap_or_default();
        all.extend(writes);
        let writes = all;
        for Write { slice, at, bytes } in &writes {
            let to = match slice {
                Slice::Verdicts => &mut self.memory.verdicts,
                Slice::Kept => &mut self.memory.kept,
            };
            to[*at..at + bytes.len()].copy_from_slice(bytes);
        }
        self.memory.numbers = numbers;
        self.session = None;
        self.steps.push((Step::Alter { numbers, writes }, None));
    }

    /// Two calls on memory that was altered, if the first leaves it known. That one
    /// is mostly refused, so that the totals are told of what was altered.
    fn call_altered(&mut self) {
        if self.random.chance(50) {
            let declared = bad_start(self.random);
            self.start(declared);
        } else {
            self.take_bad();
        }
        if self.open.is_some() {
            return;
        }
        match self.random.below(5) {
            0 | 1 => self.take_good(self.room),
            2 | 3 => self.give_back(self.room),
            _ => {}
        }
    }
}

type Play = fn(&mut Player);

/// The kinds of scripts, the slices and the number of different calls of each. All
/// but those of `FULL` come in turn.
const SCRIPTS: &[(&str, Lent, usize, Play)] = &[
    ("session/mixed", Lent::ENOUGH, 8, mixed),
    ("session/second-tries", Lent::ENOUGH, 3, second_tries),
    ("session/giving-back", Lent::ENOUGH, 6, giving_back),
    ("session/same-record-again", Lent::ENOUGH, 4, same_record_again),
    ("session/starts", Lent::ENOUGH, 5, starts),
    ("session/bad-lines", Lent::ENOUGH, 5, bad_lines),
    ("session/short-slices", Lent { verdicts: 12, kept: 12 * KEPT_BYTES + 27 }, 8, short_slices),
    ("session/no-slices", Lent { verdicts: 0, kept: 0 }, 3, no_slices),
    ("session/never-started", Lent::ENOUGH, 3, never_started),
    ("altered/one-number", Lent::ENOUGH, 6, one_number),
    ("altered/edges", Lent::ENOUGH, 6, edges),
    ("altered/sums-run-over", Lent::ENOUGH, 6, sums_run_over),
    ("altered/all-numbers", Lent::ENOUGH, 6, all_numbers),
    ("altered/last-record", Lent::ENOUGH, 6, last_record),
    ("altered/slices", Lent::ENOUGH, 6, slices),
];

/// These have more than a thousand calls each, so they come seldom.
const FULL: &[(&str, Lent, usize, Play)] = &[
    ("session/full", Lent { verdicts: 1_010, kept: 1_010 * KEPT_BYTES }, 3_000, full),
    ("session/full-of-repeats", Lent::ENOUGH, 40, full),
    ("session/one-place-too-few", Lent { verdicts: MOST_RECORDS, kept: MOST_RECORDS * KEPT_BYTES - 1 }, 12, full),
];
const BETWEEN_FULL: u64 = 60;

pub fn tags() -> Vec<&'static str> {
    SCRIPTS.iter().chain(FULL).map(|kind| kind.0).collect()
}

pub fn script(seed: u64, index: u64) -> Script {
    let mut random = Random::new(seed ^ 0x5E55_1014, index);
    let (round, place) = (index / BETWEEN_FULL, index % BETWEEN_FULL);
    let (tag, room, calls, play) = if place == BETWEEN_FULL - 1 {
        FULL[(round % FULL.len() as u64) as usize]
    } else {
        SCRIPTS[((index - round) % SCRIPTS.len() as u64) as usize]
    };
    let mut player = Player::new(&mut random, room, calls);
    play(&mut player);
    Script { tag, room, steps: player.steps }
}

/// As many scripts as have so many calls. The last one is cut short.
pub fn scripts(seed: u64, calls: usize) -> impl Iterator<Item = Script> {
    let mut left = calls;
    (0..).map_while(move |index| {
        if left == 0 {
            return None;
        }
        let mut script = script(seed, index);
        while script.calls() > left {
            script.steps.pop();
        }
        left -= script.calls();
        Some(script)
    })
}

fn mixed(player: &mut Player) {
    player.play_in(0);
    for _ in 0..player.random.between(10, 50) {
        match player.random.below(20) {
            0..=12 => player.take_good(player.room),
            13..=14 => player.take_bad(),
            15..=18 => player.give_back(player.room),
            _ => {
                let short = *player.random.pick(&[0, 1, 5, 1_000, 10_000]);
                let lent = Lent { verdicts: player.random.below(20), kept: short };
                player.take_good(lent)
            }
        };
    }
}

/// Points or none, a D or none, behind a contact or not.
fn second_tries(player: &mut Player) {
    player.play_in(0);
    player.pools.voids = 50;
    for _ in 0..player.random.between(15, 40) {
        if player.random.chance(85) {
            player.take_good(player.room);
        } else {
            player.give_back(player.room);
        }
    }
}

/// Up and down, several at a time, and at times below nothing.
fn giving_back(player: &mut Player) {
    player.play_in(0);
    for _ in 0..4 {
        for _ in 0..player.random.between(1, 10) {
            player.take_good(player.room);
        }
        for _ in 0..player.random.between(1, 12) {
            player.give_back(player.room);
        }
    }
}

/// Lines that are given back and taken again, in another order.
fn same_record_again(player: &mut Player) {
    player.play_in(0);
    let lines: Vec<Vec<u8>> = (0..6).map(|_| good_line(player.random, &player.pools)).collect();
    for _ in 0..player.random.between(10, 40) {
        if player.random.chance(65) {
            let line = player.random.pick(&lines).clone();
            player.take(line, Vec::new(), player.room);
        } else {
            player.give_back(player.room);
        }
    }
}

fn starts(player: &mut Player) {
    for _ in 0..player.random.between(8, 20) {
        let declared = if player.random.chance(50) { good_start(player.random) } else { bad_start(player.random) };
        player.start(declared);
        for _ in 0..player.random.below(4) {
            player.take_good(player.room);
        }
        if player.random.chance(20) {
            player.give_back(player.room);
        }
    }
}

fn bad_lines(player: &mut Player) {
    player.play_in(2);
    for _ in 0..player.random.between(20, 40) {
        if player.random.chance(85) {
            player.take_bad();
        } else {
            player.take_good(player.room);
        }
    }
}

/// Slices for twelve records at most, and of those at times only a part.
fn short_slices(player: &mut Player) {
    let records = player.random.below(11);
    player.play_in(records);
    for _ in 0..30 {
        let mut lent = player.room;
        let records = player.records();
        match player.random.below(6) {
            0 => lent.verdicts = (records + player.random.below(2)).min(lent.verdicts),
            1 => lent.kept = ((records + player.random.below(2)) * KEPT_BYTES).min(lent.kept),
            2 => lent.kept = ((records + 1) * KEPT_BYTES - player.random.below(3)).min(lent.kept),
            3 => lent.verdicts = records.saturating_sub(1),
            4 => lent.kept = (records * KEPT_BYTES).saturating_sub(1),
            _ => {}
        }
        match player.random.below(10) {
            0..=5 => player.take_good(lent),
            6 => player.take_bad(),
            _ => player.give_back(lent),
        };
    }
}

fn no_slices(player: &mut Player) {
    player.play_in(2);
    player.take_bad();
    player.give_back(player.room);
}

/// Numbers that are all zero, or whatever lay there, and are then started.
fn never_started(player: &mut Player) {
    if player.random.chance(50) {
        let numbers = [player.random.next(); NUMBERS];
        player.alter(Numbers::from_list(numbers), Vec::new());
    }
    // A session never started takes nothing, so that more can be told after each.
    for _ in 0..5 {
        player.call_altered();
    }
    player.play_in(3);
}

/// Numbers to try in the place of another.
fn other_number(random: &mut Random, number: u64) -> u64 {
    match random.below(12) {
        0 | 1 => number.wrapping_add(1),
        2 | 3 => number.wrapping_sub(1),
        4 => number.wrapping_add(random.between(2, 50) as u64),
        5 => number.wrapping_sub(random.between(2, 50) as u64),
        6 => 0,
        7 => *random.pick(&[1, 99, 100, 998, 999, 1_000, 9_999, 10_000, 999_999, 998_999_001, 998_999_002]),
        8 => u64::MAX,
        9 => number.wrapping_add(1 << 32),
        10 => number ^ (1 << random.below(64)),
        _ => random.next(),
    }
}

/// A session with records, and of it one number altered at a time.
fn one_number(player: &mut Player) {
    let records = player.random.below(12);
    player.play_in(records);
    let made = player.memory.numbers.as_list();
    for _ in 0..12 {
        let mut list = made;
        let place = player.random.below(NUMBERS);
        list[place] = other_number(player.random, list[place]);
        player.alter(Numbers::from_list(list), Vec::new());
        player.call_altered();
    }
}

/// Numbers on both sides of what may be, with all else as it may be.
fn edges(player: &mut Player) {
    let records = player.random.below(8);
    player.play_in(records);
    let made = player.memory.numbers;
    let counts = made.counts;
    let others = counts.credited + counts.duplicates + counts.errors;
    for _ in 0..12 {
        let mut numbers = made;
        let altered = &mut numbers.counts;
        let beyond = player.random.below(2) as u64;
        match player.random.below(9) {
            0 => altered.voids = 999 - others + beyond,
            1 => altered.points = (counts.credited * 999_999) + beyond,
            2 => altered.points = counts.credited.saturating_sub(beyond),
            3 => altered.squares = counts.credited + beyond,
            4 => altered.exchanges = counts.credited + beyond,
            5 => altered.countries = counts.credited + beyond,
            // Duplicates behind no credited record, or behind one.
            6 => altered.modes[player.random.below(11)] += beyond,
            7 => {
                *altered = Counts { duplicates: player.random.between(1, 9) as u64, ..Counts::NONE };
                altered.credited = 1 - beyond;
                altered.points = 1 - beyond;
                altered.modes[player.random.below(11)] = 1 - beyond;
            }
            // All credited, in one mode and with the most points.
            _ => {
                *altered = Counts { credited: 999 + beyond, ..Counts::NONE };
                altered.points = altered.credited * 999_999;
                altered.squares = altered.credited;
                altered.modes[player.random.below(11)] = altered.credited;
            }
        }
        player.alter(numbers, Vec::new());
        player.call_altered();
    }
}

/// Counts so large that a sum of 64 bits is right again, by running over.
fn sums_run_over(player: &mut Player) {
    let records = player.random.between(1, 8);
    player.play_in(records);
    let made = player.memory.numbers.as_list();
    for _ in 0..8 {
        let mut list = made;
        let half = 1u64 << 63;
        match player.random.below(4) {
            0 => {
                list[7] = list[7].wrapping_add(half);
                list[9] = list[9].wrapping_add(half);
            }
            1 => list[9] = 0u64.wrapping_sub(list[6] + list[7] + list[8]).wrapping_add(player.random.below(5) as u64),
            2 => {
                let (one, other) = (player.random.between(14, 18), player.random.between(19, NUMBERS - 1));
                list[one] = list[one].wrapping_add(half);
                list[other] = list[other].wrapping_add(half);
            }
            _ => {
                // All credited, with as many points as a product that runs over allows.
                list[6] = list[6].wrapping_add(1 << 62);
                list[7] = list[7].wrapping_sub(1 << 62);
                list[10] = player.random.next() >> player.random.below(64);
            }
        }
        player.alter(Numbers::from_list(list), Vec::new());
        player.call_altered();
    }
}

fn all_numbers(player: &mut Player) {
    player.play_in(3);
    for _ in 0..10 {
        let mut list = [0; NUMBERS];
        let wide = player.random.chance(30);
        for (place, number) in list.iter_mut().enumerate() {
            *number = match place {
                _ if wide => player.random.next() >> player.random.below(64),
                0 | 2 | 4 => player.random.below(11_000) as u64,
                1 | 3 | 5 => player.random.below(105) as u64,
                6..=9 => player.random.below(300) as u64,
                10 => player.random.below(300_000_000) as u64,
                11..=13 => player.random.below(200) as u64,
                _ => 0,
            };
        }
        if !wide {
            for _ in 0..list[6] {
                list[player.random.between(14, NUMBERS - 1)] += 1;
            }
        }
        player.alter(Numbers::from_list(list), Vec::new());
        player.call_altered();
    }
}

/// Some number is smaller than it was, and may still be.
fn lower(random: &mut Random, numbers: Numbers) -> Numbers {
    let mut lower = numbers;
    let counts = &mut lower.counts;
    match random.below(5) {
        0 => counts.points = counts.credited,
        1 => counts.squares = 0,
        2 => counts.exchanges = 0,
        3 => counts.countries = 0,
        _ => counts.modes.rotate_right(1),
    }
    lower
}

/// What the slices have of the last record is that of another one, or the numbers
/// are too small for what it brought.
fn last_record(player: &mut Player) {
    let records = player.random.between(1, 12);
    player.play_in(records);
    for _ in 0..6 {
        let made = player.memory.clone();
        let counts = made.numbers.counts;
        let records = (counts.credited + counts.voids + counts.duplicates + counts.errors) as usize;
        if records == 0 {
            return;
        }
        if player.random.chance(50) {
            let numbers = lower(player.random, made.numbers);
            player.alter(numbers, Vec::new());
            player.give_back(player.room);
        }
        let line = good_line(player.random, &player.pools);
        let verdict = *player.random.pick(&possible_verdicts(&line));
        let mut writes = Vec::new();
        if player.random.chance(80) {
            writes.push(Write { slice: Slice::Verdicts, at: records - 1, bytes: vec![verdict] });
        }
        if player.random.chance(80) {
            writes.push(Write { slice: Slice::Kept, at: (records - 1) * KEPT_BYTES, bytes: kept_of(&line, verdict) });
        }
        player.alter(made.numbers, writes);
        player.give_back(player.room);
    }
}

/// Any bytes in the slices.
fn slices(player: &mut Player) {
    let records = player.random.between(1, 12);
    player.play_in(records);
    let numbers = player.memory.numbers;
    for _ in 0..5 {
        let mut writes = Vec::new();
        for _ in 0..player.random.between(1, 8) {
            let (slice, most) = *player.random.pick(&[(Slice::Verdicts, records), (Slice::Kept, records * KEPT_BYTES)]);
            let at = player.random.below(most);
            let length = player.random.between(1, (most - at).min(KEPT_BYTES));
            let bytes = (0..length).map(|_| player.random.below(256) as u8).collect();
            writes.push(Write { slice, at, bytes });
        }
        player.alter(numbers, writes);
        player.call_altered();
    }
}

/// Up to 999 records and beyond, down, and up to the last place again.
fn full(player: &mut Player) {
    player.play_in(0);
    while player.records() < MOST_RECORDS - 1 {
        player.take_good(player.room);
    }
    for _ in 0..40 {
        match player.random.below(8) {
            0..=3 => player.take_good(player.room),
            4 => player.take_bad(),
            _ => player.give_back(player.room),
        };
    }
    for _ in 0..player.random.between(1, 30) {
        player.give_back(player.room);
    }
    for _ in 0..35 {
        player.take_good(player.room);
    }
}
