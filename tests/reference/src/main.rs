//! The program `reference`.
//!
//! ```text
//! reference desk < LOG                     the desk program's answer
//! reference trials --count N --seed S      N trials as a binary stream
//! reference calls --calls M --seed S       M calls in scripts, as another
//! reference links --links K --seed S       K scripts of a link, as a third
//! reference verbs FOLDER --count N --seed S    N trials of the desk's verbs, as files
//! reference show --seed S --index I        the raw log of one trial
//! reference strikes --seed S --index I     what is struck from it: the records, each with its byte
//! reference script --seed S --index I      the calls of one script in words
//! reference link --seed S --index I        those of one script of a link
//! reference tags                           every tag, one on a line
//! ```
//!
//! The stream of `trials`, all numbers little-endian and unsigned, nothing
//! between the parts and nothing after the last trial:
//!
//! ```text
//! stream   8 bytes "SQTRIAL5", u64 seed, u32 number of trials, the trials
//! trial    u32 index
//!          bytes tag              (ASCII, for messages)
//!          bytes log
//!          u64 keyword            the number asked of the view
//!          u32 verdict slice      its length in bytes
//!          u32 output slice       its length in bytes
//!          u32 mended slice       its length in bytes
//!          u32 kind slice         its length in bytes
//!          u32 line slice         its length in numbers of 4 bytes
//!          read:  answer, u32 records, u32 respelt
//!          view:  answer, u32 start, u32 length, u32 listed
//!          u64 listed             of keyword k bit k - 1: whether it is listed
//!          judge: answer, 12 x u64 totals, 11 x u64 modes, bytes verdicts
//!          write: answer, bytes result
//!          mend:  answer, bytes result, bytes kinds, and a u32 line for each
//!          u32 number of strikes, the strikes
//! strike   bytes name             (ASCII, for messages)
//!          bytes struck           the slice that says what is struck
//!          u32 output slice       its length in bytes
//!          answer, bytes result
//!          12 x u64 totals, 11 x u64 modes, bytes verdicts: of the result
//!          u32 promoted           how many duplicates became credited
//! bytes    u32 length, then that many bytes
//! answer   u32 number, u32 line, u32 field: three zeros for acceptance
//! ```
//!
//! The totals come in the order credited, voids, duplicates, errors, points,
//! squares, exchanges, countries, square bonus, exchange bonus, country bonus,
//! total; the modes are the credited records of each code, 0 to 9, and then
//! those of a blank mode. `respelt` is how many keywords stand in another
//! spelling than the listed one, and `listed` is 1 where the one asked for
//! stands in that. After a refusal every number behind the answer is 0 and every
//! `bytes` is empty; what was lent must then be unchanged. The bits of all
//! keywords are 0 for a log that is refused. Each strike that is accepted is held
//! to demand 3; where it does not hold, the program fails.
//!
//! The stream of `calls`, with the same numbers, bytes and answers:
//!
//! ```text
//! stream   8 bytes "SQCALLS5", u64 seed, u32 number of calls, the scripts
//! script   u32 index
//!          bytes tag
//!          u32 verdicts           the length of that slice
//!          u32 kept               the length of that slice
//!          u32 number of steps, the steps
//! step     u32 kind: 0 alter, 1 start, 2 take, 3 give back; 1 to 3 are calls
//!   alter  numbers, u32 number of writes; each write: u32 slice (0 verdicts,
//!          1 kept), u32 place in it, bytes
//!   start  6 x u32 declared, told
//!   take   lent, bytes line, bytes behind it, told
//!   give back   lent, told
//! lent     u32 verdicts, u32 kept: how much of each slice the call is lent
//! told     u32 kind
//!   0 all  answer, numbers, 12 x u64 totals, 11 x u64 modes,
//!          u32 number of records written, 0 or 1; if 1: u32 place, u32 verdict,
//!          28 bytes kept
//!   1 taken as      u32 place, bytes verdicts it can have, 28 bytes kept of it
//!                   if it is credited
//!   2 given back    or refused with 12: nothing more
//! numbers  25 x u64: the session's, in the order of its struct
//! ```
//!
//! Each script begins with numbers that are all zero, and with slices where byte
//! i is the lowest byte of 29 times i, with the bits of 0xA5 turned. The numbers
//! and totals of `all` are those after the call. What a call writes stays for
//! those after it, and so does what is altered. `taken as` and `given back` are
//! told where memory that no run of calls made leaves open what is answered; no
//! call comes behind one of these before the numbers, and the record that was
//! taken, are altered.
//!
//! The stream of `links`, with the same numbers, bytes and answers:
//!
//! ```text
//! stream   8 bytes "SQLINKS1", u64 seed, u32 number of scripts, the scripts
//! script   u32 index
//!          bytes tag
//!          bytes verdicts         what lies in that slice at first
//!          bytes worked           what lies in that slice at first
//!          u32 number of steps, the steps
//! step     u32 kind: 0 alter, 1 open, 2 feed, 3 close; 1 to 3 are calls
//!   alter  link, u32 number of writes; each write: u32 slice (0 verdicts,
//!          1 worked), u32 place in it, bytes
//!   open   told
//!   feed   lent, bytes piece, told
//!   close  lent, 12 x u64 totals, 11 x u64 modes, told
//! lent     u32 verdicts, u32 worked: how much of each slice the call is lent
//! told     answer, link, u32 place, bytes verdicts, bytes worked
//! link     156 bytes: the struct
//! ```
//!
//! `told` has the struct after the call, and the verdicts and entries that the
//! call wrote, for one record after the other from `place` on; all else in the
//! slices is as it was. The answer of `open`, which answers nothing, is three
//! zeros. Before the first step byte i of the struct is what the lowest byte of 29
//! times i is with the bits of 0xA5 turned.
//!
//! `verbs` prints a line for each trial: its index, its tag, and the words for
//! `strike`, with a space between each two. In the folder, which has to be there,
//! it leaves of each the log, `INDEX.edi`, and for each verb of `table`, `write`
//! and `strike` all that has to be on standard output, `INDEX.VERB`, and on
//! standard error, `INDEX.VERB.err`. `show` shows the log by its index.

use reference::calls::{script, scripts, tags, Script, Slice, Step, Told, Wrote};
use reference::generate::{Generator, Trial};
use reference::judging::judge_log;
use reference::links::{self, Links};
use reference::reading::{KEYWORDS, LONGEST_LOG};
use reference::screen::{self, Screen};
use reference::session::Numbers;
use reference::strikes::Strike;
use reference::striking::{places, Striking};
use reference::verbs::{self, Trials, Word};
use reference::{desk, judge, mend, read, strike, view, write, Lent, Log, Mended, Refusal, Totals};
use std::fs;
use std::io::{self, BufWriter, Read, Write};
use std::path::Path;
use std::process::ExitCode;

const USAGE: &str = "usage: reference desk | trials --count N --seed S | calls --calls M --seed S | links --links K --seed S | \
    verbs FOLDER --count N --seed S | show|strikes|script|link --seed S --index I | tags";

fn main() -> ExitCode {
    let arguments: Vec<String> = std::env::args().skip(1).collect();
    match run(&arguments) {
        Ok(()) => ExitCode::SUCCESS,
        Err(message) => {
            eprintln!("{message}");
            ExitCode::FAILURE
        }
    }
}

fn run(arguments: &[String]) -> Result<(), String> {
    let done = match arguments.first().map(String::as_str) {
        Some("desk") => answer_desk(),
        Some("trials") => {
            let count = option(arguments, "--count")?;
            let count = u32::try_from(count).map_err(|_| "too many trials".to_string())?;
            write_trials(option(arguments, "--seed")?, count)
        }
        Some("calls") => {
            let calls = option(arguments, "--calls")?;
            let calls = u32::try_from(calls).map_err(|_| "too many calls".to_string())?;
            write_calls(option(arguments, "--seed")?, calls)
        }
        Some("links") => {
            let scripts = option(arguments, "--links")?;
            let scripts = u32::try_from(scripts).map_err(|_| "too many scripts".to_string())?;
            write_links(option(arguments, "--seed")?, scripts)
        }
        Some("verbs") => {
            let folder = arguments.get(1).ok_or(USAGE.to_string())?;
            let count = option(arguments, "--count")?;
            let count = usize::try_from(count).map_err(|_| "too many trials".to_string())?;
            write_verbs(Path::new(folder), option(arguments, "--seed")?, count)
        }
        Some("show") => show(option(arguments, "--seed")?, option(arguments, "--index")?),
        Some("strikes") => show_strikes(option(arguments, "--seed")?, option(arguments, "--index")?),
        Some("script") => show_script(option(arguments, "--seed")?, option(arguments, "--index")?),
        Some("link") => show_link(option(arguments, "--seed")?, option(arguments, "--index")?),
        Some("tags") => show_tags(),
        _ => return Err(USAGE.to_string()),
    };
    done.map_err(|error| error.to_string())
}

fn option(arguments: &[String], name: &str) -> Result<u64, String> {
    let place = arguments.iter().position(|argument| argument == name);
    let value = place.and_then(|place| arguments.get(place + 1));
    value.and_then(|value| value.parse().ok()).ok_or(USAGE.to_string())
}

fn answer_desk() -> io::Result<()> {
    // One byte beyond the limit is enough to know that a log is too long.
    let mut log = Vec::new();
    io::stdin().take(LONGEST_LOG as u64 + 1).read_to_end(&mut log)?;
    io::stdout().write_all(desk(&log).as_bytes())
}

fn show(seed: u64, index: u64) -> io::Result<()> {
    let trial = Generator::new(seed).trial(index);
    io::stdout().write_all(&trial.log)
}

fn show_strikes(seed: u64, index: u64) -> io::Result<()> {
    let trial = Generator::new(seed).trial(index);
    let records = read(&trial.log).map_or(0, |log| log.records.len());
    let mut text = String::new();
    for Strike { name, struck, output_len } in &trial.strikes {
        let marks = struck.iter().take(records).enumerate().filter(|(_, &byte)| byte != 0);
        let marks: String = marks.map(|(at, byte)| format!(" {}:{byte}", at + 1)).collect();
        let marks = if marks.is_empty() { " no record" } else { &marks };
        text += &format!("strike {name}, by {} bytes,{marks}, into {output_len} bytes: ", struck.len());
        text += &match strike(&trial.log, struck, *output_len) {
            Ok(rest) => format!("{} bytes\n", rest.len()),
            Err(refusal) => format!("refused {} {} {}\n", refusal.number, refusal.line, refusal.field),
        };
    }
    io::stdout().write_all(text.as_bytes())
}

fn show_script(seed: u64, index: u64) -> io::Result<()> {
    let script = script(seed, index);
    let mut text = format!("{}, slices of {} and {} bytes\n", script.tag, script.room.verdicts, script.room.kept);
    for (step, told) in &script.steps {
        text += &match step {
            Step::Alter { numbers, writes } => format!("alter {:?}, {writes:?}", numbers.as_list()),
            Step::Start(declared) => format!("start {declared:?}"),
            Step::Take { line, lent, .. } => format!("take \"{}\", lent {} {}", line.escape_ascii(), lent.verdicts, lent.kept),
            Step::GiveBack { lent } => format!("give back, lent {} {}", lent.verdicts, lent.kept),
        };
        text += &match told {
            None => "\n".to_string(),
            Some(Told::All { answer: Ok(()), wrote: Some(wrote), .. }) => format!(": verdict {}\n", wrote.verdict),
            Some(Told::All { answer: Ok(()), .. }) => ": accepted\n".to_string(),
            Some(Told::All { answer: Err(refusal), .. }) => format!(": refused {} 0 {}\n", refusal.number, refusal.field),
            Some(Told::TakenAs { verdicts, .. }) => format!(": one of the verdicts {verdicts:?}\n"),
            Some(Told::GivenBackOrNot) => ": accepted or refused\n".to_string(),
        };
    }
    io::stdout().write_all(text.as_bytes())
}

fn show_link(seed: u64, index: u64) -> io::Result<()> {
    let script = Links::new(seed).script(index);
    let mut text = format!("{}, slices of {} and {} bytes\n", script.tag, script.verdicts.len(), script.worked.len());
    for (step, told) in &script.steps {
        text += &match step {
            links::Step::Alter { link, writes } => format!("alter {link:?}, {writes:?}\n"),
            links::Step::Open => "open".to_string(),
            links::Step::Feed { piece, lent } => format!("feed \"{}\", lent {} {}", piece.escape_ascii(), lent.verdicts, lent.worked),
            links::Step::Close { lent } => format!("close, lent {} {}", lent.verdicts, lent.worked),
        };
        if let Some(links::Told { answer, verdicts, place, totals, .. }) = told {
            text += &format!(": {} {} {}, verdicts {verdicts:?} at {place}, total {}\n", answer.number, answer.line, answer.field, totals.total);
        }
    }
    io::stdout().write_all(text.as_bytes())
}

fn show_tags() -> io::Result<()> {
    let of_scripts = tags().into_iter().chain(links::tags()).map(str::to_string);
    let all: Vec<String> = Generator::new(0).tags().into_iter().chain(of_scripts).collect();
    let text = all.join("\n") + "\n";
    io::stdout().write_all(text.as_bytes())
}

fn write_trials(seed: u64, count: u32) -> io::Result<()> {
    let mut out = BufWriter::with_capacity(1 << 16, io::stdout().lock());
    out.write_all(b"SQTRIAL5")?;
    put_u64(&mut out, seed)?;
    put_u32(&mut out, count)?;
    let generator = Generator::new(seed);
    for index in 0..count {
        put_trial(&mut out, index, &generator.trial(u64::from(index)))?;
    }
    out.flush()
}

fn put_trial(out: &mut impl Write, index: u32, trial: &Trial) -> io::Result<()> {
    put_u32(out, index)?;
    put_bytes(out, trial.tag.as_bytes())?;
    put_bytes(out, &trial.log)?;
    put_u64(out, trial.keyword)?;
    put_size(out, trial.verdicts_len)?;
    put_size(out, trial.output_len)?;
    put_size(out, trial.rooms.out)?;
    put_size(out, trial.rooms.kinds)?;
    put_size(out, trial.rooms.lines)?;

    let answer = read(&trial.log).map(|log| (log.records.len(), log.respelt()));
    put_answer(out, &answer)?;
    let (records, respelt) = answer.unwrap_or((0, 0));
    put_size(out, records)?;
    put_size(out, respelt)?;

    // A number too large for this machine is as wrong as the largest one.
    let keyword = usize::try_from(trial.keyword).unwrap_or(usize::MAX);
    let answer = view(&trial.log, keyword);
    put_answer(out, &answer)?;
    let seen = answer.unwrap_or_default();
    put_size(out, seen.start)?;
    put_size(out, seen.length)?;
    put_u32(out, u32::from(seen.listed))?;
    put_u64(out, listed_bits(&trial.log))?;

    let answer = judge(&trial.log, trial.verdicts_len);
    put_answer(out, &answer)?;
    let (totals, verdicts) = answer.unwrap_or((Totals::default(), Vec::new()));
    put_totals(out, &totals)?;
    put_bytes(out, &verdicts)?;

    let answer = write(&trial.log, trial.output_len);
    put_answer(out, &answer)?;
    put_bytes(out, &answer.unwrap_or_default())?;

    let answer = mend(&trial.log, trial.rooms);
    put_answer(out, &answer)?;
    put_mended(out, &answer.unwrap_or(Mended { text: Vec::new(), changes: Vec::new() }))?;

    put_strikes(out, trial).map_err(|fault| io::Error::new(fault.kind(), format!("trial {index} ({}), {fault}", trial.tag)))
}

fn put_strikes(out: &mut impl Write, trial: &Trial) -> io::Result<()> {
    let read = read(&trial.log);
    let judged = read.as_ref().ok().map(|log| (log, judge_log(log)));
    put_size(out, trial.strikes.len())?;
    for asked in &trial.strikes {
        put_bytes(out, asked.name.as_bytes())?;
        put_bytes(out, &asked.struck)?;
        put_size(out, asked.output_len)?;
        let answer = strike(&trial.log, &asked.struck, asked.output_len);
        put_answer(out, &answer)?;
        let (totals, verdicts, promoted) = match (&answer, &judged) {
            (Ok(rest), Some((log, before))) => strike_told(asked, log, before, rest)?,
            _ => (Totals::default(), Vec::new(), 0),
        };
        put_bytes(out, &answer.unwrap_or_default())?;
        put_totals(out, &totals)?;
        put_bytes(out, &verdicts)?;
        put_size(out, promoted)?;
    }
    Ok(())
}

/// What is told of a strike that was accepted, once demand 3 was seen to hold.
fn strike_told(asked: &Strike, log: &Log, before: &(Totals, Vec<u8>), rest: &[u8]) -> io::Result<(Totals, Vec<u8>, usize)> {
    let broken = |fault| io::Error::other(format!("strike {}: demand 3 does not hold: {fault}", asked.name));
    let struck = places(&asked.struck, log.records.len()).expect("a byte for each record");
    let striking = Striking::new(log, before, &struck, rest).map_err(broken)?;
    match striking.fault() {
        Some(fault) => Err(broken(fault)),
        None => Ok((striking.after().0, striking.after().1.clone(), striking.promoted())),
    }
}

fn put_mended(out: &mut impl Write, mended: &Mended) -> io::Result<()> {
    put_bytes(out, &mended.text)?;
    let kinds: Vec<u8> = mended.changes.iter().map(|change| change.kind).collect();
    put_bytes(out, &kinds)?;
    mended.changes.iter().try_for_each(|change| put_u32(out, change.line))
}

fn write_calls(seed: u64, calls: u32) -> io::Result<()> {
    let mut out = BufWriter::with_capacity(1 << 16, io::stdout().lock());
    out.write_all(b"SQCALLS5")?;
    put_u64(&mut out, seed)?;
    put_u32(&mut out, calls)?;
    for (index, script) in scripts(seed, calls as usize).enumerate() {
        put_size(&mut out, index)?;
        put_script(&mut out, &script)?;
    }
    out.flush()
}

fn put_script(out: &mut impl Write, script: &Script) -> io::Result<()> {
    put_bytes(out, script.tag.as_bytes())?;
    put_lent(out, script.room)?;
    put_size(out, script.steps.len())?;
    for (step, told) in &script.steps {
        put_step(out, step)?;
        told.as_ref().map_or(Ok(()), |told| put_told(out, told))?;
    }
    Ok(())
}

fn put_step(out: &mut impl Write, step: &Step) -> io::Result<()> {
    match step {
        Step::Alter { numbers, writes } => {
            put_u32(out, 0)?;
            put_numbers(out, numbers)?;
            put_size(out, writes.len())?;
            for write in writes {
                put_u32(out, u32::from(write.slice == Slice::Kept))?;
                put_size(out, write.at)?;
                put_bytes(out, &write.bytes)?;
            }
            Ok(())
        }
        Step::Start(declared) => {
            put_u32(out, 1)?;
            declared.iter().try_for_each(|&number| put_u32(out, number))
        }
        Step::Take { line, behind, lent } => {
            put_u32(out, 2)?;
            put_lent(out, *lent)?;
            put_bytes(out, line)?;
            put_bytes(out, behind)
        }
        Step::GiveBack { lent } => {
            put_u32(out, 3)?;
            put_lent(out, *lent)
        }
    }
}

fn put_told(out: &mut impl Write, told: &Told) -> io::Result<()> {
    match told {
        Told::All { answer, numbers, totals, wrote } => {
            put_u32(out, 0)?;
            put_answer(out, answer)?;
            put_numbers(out, numbers)?;
            put_totals(out, totals)?;
            put_u32(out, u32::from(wrote.is_some()))?;
            if let Some(Wrote { place, verdict, kept }) = wrote {
                put_size(out, *place)?;
                put_u32(out, u32::from(*verdict))?;
                out.write_all(kept)?;
            }
            Ok(())
        }
        Told::TakenAs { place, verdicts, kept } => {
            put_u32(out, 1)?;
            put_size(out, *place)?;
            put_bytes(out, verdicts)?;
            out.write_all(kept)
        }
        Told::GivenBackOrNot => put_u32(out, 2),
    }
}

fn put_lent(out: &mut impl Write, lent: Lent) -> io::Result<()> {
    put_size(out, lent.verdicts)?;
    put_size(out, lent.kept)
}

fn put_numbers(out: &mut impl Write, numbers: &Numbers) -> io::Result<()> {
    numbers.as_list().into_iter().try_for_each(|number| put_u64(out, number))
}

/// Which keywords of a log stand in the listed spelling, the first as bit 0.
fn listed_bits(log: &[u8]) -> u64 {
    let Ok(log) = read(log) else { return 0 };
    let listed = (0..KEYWORDS.len()).filter(|&place| log.is_listed(place));
    listed.map(|place| 1 << place).sum()
}

fn put_u32(out: &mut impl Write, value: u32) -> io::Result<()> {
    out.write_all(&value.to_le_bytes())
}

fn write_links(seed: u64, scripts: u32) -> io::Result<()> {
    let mut out = BufWriter::with_capacity(1 << 16, io::stdout().lock());
    out.write_all(b"SQLINKS1")?;
    put_u64(&mut out, seed)?;
    put_u32(&mut out, scripts)?;
    let links = Links::new(seed);
    for index in 0..scripts {
        put_u32(&mut out, index)?;
        put_link_script(&mut out, &links.script(u64::from(index)))?;
    }
    out.flush()
}

fn put_link_script(out: &mut impl Write, script: &links::Script) -> io::Result<()> {
    put_bytes(out, script.tag.as_bytes())?;
    put_bytes(out, &script.verdicts)?;
    put_bytes(out, &script.worked)?;
    put_size(out, script.steps.len())?;
    for (step, told) in &script.steps {
        put_link_step(out, step)?;
        let Some(told) = told else { continue };
        if let links::Step::Close { .. } = step {
            put_totals(out, &told.totals)?;
        }
        put_link_told(out, told)?;
    }
    Ok(())
}

fn put_link_step(out: &mut impl Write, step: &links::Step) -> io::Result<()> {
    match step {
        links::Step::Alter { link, writes } => {
            put_u32(out, 0)?;
            out.write_all(&link.as_bytes())?;
            put_size(out, writes.len())?;
            for write in writes {
                put_u32(out, u32::from(write.slice == links::Slice::Worked))?;
                put_size(out, write.at)?;
                put_bytes(out, &write.bytes)?;
            }
            Ok(())
        }
        links::Step::Open => put_u32(out, 1),
        links::Step::Feed { piece, lent } => {
            put_u32(out, 2)?;
            put_size(out, lent.verdicts)?;
            put_size(out, lent.worked)?;
            put_bytes(out, piece)
        }
        links::Step::Close { lent } => {
            put_u32(out, 3)?;
            put_size(out, lent.verdicts)?;
            put_size(out, lent.worked)
        }
    }
}

fn put_link_told(out: &mut impl Write, told: &links::Told) -> io::Result<()> {
    let answer = &told.answer;
    for number in [answer.number, answer.line, answer.field] {
        put_u32(out, number)?;
    }
    out.write_all(&told.link.as_bytes())?;
    put_size(out, told.place)?;
    put_bytes(out, &told.verdicts)?;
    put_bytes(out, &told.worked)
}

fn write_verbs(folder: &Path, seed: u64, count: usize) -> io::Result<()> {
    let mut out = BufWriter::new(io::stdout().lock());
    for trial in Trials::new(seed).take(count) {
        keep_verbs(folder, &trial)?;
        let words: Vec<String> = trial.words.iter().map(Word::text).collect();
        writeln!(out, "{} {} {}", trial.index, trial.tag, words.join(" "))?;
    }
    out.flush()
}

fn keep_verbs(folder: &Path, trial: &verbs::Trial) -> io::Result<()> {
    let keep = |ending: &str, bytes: &[u8]| fs::write(folder.join(format!("{}.{ending}", trial.index)), bytes);
    keep("edi", &trial.log)?;
    for (verb, Screen { output, error }) in [
        ("table", screen::table(&trial.log)),
        ("write", screen::write(&trial.log)),
        ("strike", screen::strike(&trial.log, &trial.named())),
    ] {
        keep(verb, &output)?;
        keep(&format!("{verb}.err"), &error)?;
    }
    Ok(())
}

fn put_totals(out: &mut impl Write, totals: &Totals) -> io::Result<()> {
    totals.as_list().into_iter().chain(totals.modes).try_for_each(|number| put_u64(out, number))
}

fn put_u64(out: &mut impl Write, value: u64) -> io::Result<()> {
    out.write_all(&value.to_le_bytes())
}

fn put_size(out: &mut impl Write, size: usize) -> io::Result<()> {
    put_u32(out, u32::try_from(size).expect("sizes stay far below 2 to the 32nd"))
}

fn put_bytes(out: &mut impl Write, bytes: &[u8]) -> io::Result<()> {
    put_size(out, bytes.len())?;
    out.write_all(bytes)
}

fn put_answer<T>(out: &mut impl Write, answer: &Result<T, Refusal>) -> io::Result<()> {
    let (number, line, field) = match answer {
        Ok(_) => (0, 0, 0),
        Err(refusal) => (refusal.number, refusal.line, refusal.field),
    };
    put_u32(out, number)?;
    put_u32(out, line)?;
    put_u32(out, field)
}
