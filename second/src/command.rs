//! The command line: words, files, formats and the order of complaints.

use crate::calls::read_session;
use crate::check::{check, MAX_FILE};
use crate::compare::compare;
use crate::examples;
use crate::machine::{run, run_back, Run};
use crate::number::Refusal;
use crate::place::{Direction, Place};
use crate::program::Program;
use crate::recheck::{recheck, sized};
use crate::session::Session;
use crate::vectors::Family;
use crate::walk::walks;
use crate::workloads;
use std::ffi::{OsStr, OsString};
use std::fmt::Write as _;
use std::fs::File;
use std::io::{self, Read, Write};
use std::path::{Path, PathBuf};
use std::process::ExitCode;

pub const USAGE: &str = "usage: second run | check FILE | start FILE SESSION [down|up] | \
step FILE SESSION [N] | back FILE SESSION [N] | set FILE SESSION CELL VALUE | \
show FILE SESSION | vectors NAME | expect NAME | walks SEED COUNT | examples DIR | \
workloads DIR | recheck N | sized BYTES | compare BENCH SEED COUNT";

/// The steps that `run` makes at most.
const RUN_STEPS: u32 = 1_000_000;

/// A longer session file is 22 whatever follows: 4 + 8 + 4 * 1,104, then 4 + 4 * 16,382, and one more.
const MAX_SESSION: usize = 69_960;

/// Why a command printed no answer.
enum Trouble {
    WrongWords,
    /// A file's name and the reason.
    File(String, io::Error),
    Refused(Refusal),
    /// The generated cases never met these.
    NeverMet(Vec<String>),
}

impl From<Refusal> for Trouble {
    fn from(refusal: Refusal) -> Trouble {
        Trouble::Refused(refusal)
    }
}

/// Wrong words end with status 2, file trouble with 1; an answer or a refusal with 0.
pub fn main(words: &[OsString]) -> ExitCode {
    match Command::parse(words).and_then(|command| command.perform()) {
        Ok(text) => say(&text),
        Err(Trouble::Refused(refusal)) => say(&format!("{refusal}\n")),
        Err(Trouble::WrongWords) => complain(USAGE, 2),
        Err(Trouble::File(name, reason)) => complain(&format!("second: {name}: {reason}"), 1),
        Err(Trouble::NeverMet(what)) => complain(&format!("second: never met: {what:?}"), 1),
    }
}

fn say(text: &str) -> ExitCode {
    let mut out = io::stdout().lock();
    match out.write_all(text.as_bytes()).and_then(|()| out.flush()) {
        Ok(()) => ExitCode::SUCCESS,
        Err(reason) => complain(&format!("second: standard output: {reason}"), 1),
    }
}

fn complain(line: &str, status: u8) -> ExitCode {
    // Nobody is left to tell where standard error is closed too.
    let _ = writeln!(io::stderr(), "{line}");
    ExitCode::from(status)
}

enum Command {
    Run,
    Check(PathBuf),
    Start(PathBuf, PathBuf, Direction),
    Step(PathBuf, PathBuf, u32),
    Back(PathBuf, PathBuf, u32),
    Set(PathBuf, PathBuf, u32, i32),
    Show(PathBuf, PathBuf),
    Vectors(Family),
    Expect(Family),
    Walks(u32, u32),
    Examples(PathBuf),
    Workloads(PathBuf),
    Recheck(u32),
    Sized(u32),
    Compare(PathBuf, u32, u32),
}

impl Command {
    fn parse(words: &[OsString]) -> Result<Command, Trouble> {
        Command::of_words(words).ok_or(Trouble::WrongWords)
    }

    fn of_words(words: &[OsString]) -> Option<Command> {
        let (name, rest) = words.split_first()?;
        Some(match (name.to_str()?, rest) {
            ("run", []) => Command::Run,
            ("check", [file]) => Command::Check(file.into()),
            ("start", [file, session]) => {
                Command::Start(file.into(), session.into(), Direction::Down)
            }
            ("start", [file, session, way]) => {
                Command::Start(file.into(), session.into(), direction(way)?)
            }
            ("step", [file, session]) => Command::Step(file.into(), session.into(), 1),
            ("step", [file, session, n]) => Command::Step(file.into(), session.into(), natural(n)?),
            ("back", [file, session]) => Command::Back(file.into(), session.into(), 1),
            ("back", [file, session, n]) => Command::Back(file.into(), session.into(), natural(n)?),
            ("set", [file, session, cell, value]) => {
                Command::Set(file.into(), session.into(), natural(cell)?, integer(value)?)
            }
            ("show", [file, session]) => Command::Show(file.into(), session.into()),
            ("vectors", [family]) => Command::Vectors(Family::named(family.to_str()?)?),
            ("expect", [family]) => Command::Expect(Family::named(family.to_str()?)?),
            ("walks", [seed, count]) => Command::Walks(natural(seed)?, natural(count)?),
            ("examples", [folder]) => Command::Examples(folder.into()),
            ("workloads", [folder]) => Command::Workloads(folder.into()),
            ("recheck", [n]) => Command::Recheck(natural(n)?),
            ("sized", [bytes]) => Command::Sized(natural(bytes)?),
            ("compare", [bench, seed, count]) => {
                Command::Compare(bench.into(), natural(seed)?, natural(count)?)
            }
            _ => return None,
        })
    }

    fn perform(&self) -> Result<String, Trouble> {
        match self {
            Command::Run => run_standard_input(),
            Command::Check(file) => check_file(file),
            Command::Start(file, session, way) => start_session(file, session, *way),
            Command::Step(file, session, n) => move_session(file, session, *n, run),
            Command::Back(file, session, n) => move_session(file, session, *n, run_back),
            Command::Set(file, session, cell, value) => set_cell(file, session, *cell, *value),
            Command::Show(file, session) => show_session(file, session),
            Command::Vectors(family) => Ok(family.cases()),
            Command::Expect(family) => expect(*family),
            Command::Walks(seed, count) => walk(*seed, *count),
            Command::Examples(folder) => write_examples(folder),
            Command::Workloads(folder) => write_workloads(folder),
            Command::Recheck(n) => Ok(recheck(&mut read_standard_input()?, *n)),
            Command::Sized(bytes) => write_sized(*bytes),
            Command::Compare(bench, seed, count) => compare(bench, *seed, *count)
                .map(|compared| compared.text())
                .map_err(|reason| file_trouble(bench, reason)),
        }
    }
}

fn direction(word: &OsStr) -> Option<Direction> {
    match word.to_str()? {
        "down" => Some(Direction::Down),
        "up" => Some(Direction::Up),
        _ => None,
    }
}

/// 1 to 10 digits, nothing else.
fn digits(text: &str) -> Option<i64> {
    let all_digits = text.bytes().all(|byte| byte.is_ascii_digit());
    if !all_digits || !(1..=10).contains(&text.len()) {
        return None;
    }
    text.parse().ok()
}

/// Digits up to 4294967295.
fn natural(word: &OsStr) -> Option<u32> {
    u32::try_from(digits(word.to_str()?)?).ok()
}

/// An optional minus and digits, within i32.
fn integer(word: &OsStr) -> Option<i32> {
    let text = word.to_str()?;
    let value = match text.strip_prefix('-') {
        Some(rest) => -digits(rest)?,
        None => digits(text)?,
    };
    i32::try_from(value).ok()
}

fn read_standard_input() -> Result<Vec<u8>, Trouble> {
    read_at_most(io::stdin().lock(), MAX_FILE + 1)
        .map_err(|reason| Trouble::File("standard input".to_string(), reason))
}

fn run_standard_input() -> Result<String, Trouble> {
    let program = check(&read_standard_input()?)?;
    let mut store = vec![0; program.cells()];
    let place = Place::start(&program, Direction::Down);
    let ran = run(&program, &place, &mut store, RUN_STEPS);
    Ok(steps_line(&ran) + &at_line(&ran.place) + &cell_lines(&store))
}

/// Answer lines for the case lines on standard input.
fn expect(family: Family) -> Result<String, Trouble> {
    let trouble = |reason| Trouble::File("standard input".to_string(), reason);
    let mut cases = String::new();
    io::stdin()
        .lock()
        .read_to_string(&mut cases)
        .map_err(trouble)?;
    family.answers(&cases).map_err(|line| {
        let reason = format!("line {line} is no case");
        trouble(io::Error::new(io::ErrorKind::InvalidData, reason))
    })
}

/// The properties on generated programs; what they met, and trouble where something was not.
fn walk(seed: u32, count: u32) -> Result<String, Trouble> {
    let tally = walks(u64::from(seed), count as usize);
    match tally.missing() {
        missing if missing.is_empty() => Ok(tally.to_string()),
        missing => Err(Trouble::NeverMet(missing)),
    }
}

/// Each example's file in a folder that is there; prints their names.
fn write_examples(folder: &Path) -> Result<String, Trouble> {
    let files = examples::all()
        .into_iter()
        .map(|example| (example.file_name(), example.tree.encode()));
    write_files(folder, files.collect())
}

fn write_workloads(folder: &Path) -> Result<String, Trouble> {
    let files = workloads::all()
        .into_iter()
        .map(|workload| (workload.file_name(), workload.tree.encode()));
    write_files(folder, files.collect())
}

/// A program file's bytes on standard output, and so no text.
fn write_sized(bytes: u32) -> Result<String, Trouble> {
    let file = sized(bytes as usize).ok_or(Trouble::WrongWords)?;
    io::stdout()
        .write_all(&file)
        .map_err(|reason| Trouble::File("standard output".to_string(), reason))?;
    Ok(String::new())
}

fn write_files(folder: &Path, files: Vec<(String, Vec<u8>)>) -> Result<String, Trouble> {
    let mut text = String::new();
    for (name, bytes) in files {
        let path = folder.join(&name);
        std::fs::write(&path, bytes).map_err(|reason| file_trouble(&path, reason))?;
        text += &format!("{name}\n");
    }
    Ok(text)
}

fn check_file(file: &Path) -> Result<String, Trouble> {
    let program = check(&read_program(file)?)?;
    Ok(accepted_line(&program))
}

fn start_session(file: &Path, session: &Path, way: Direction) -> Result<String, Trouble> {
    let program = check(&read_program(file)?)?;
    let started = Session {
        place: Place::start(&program, way),
        store: vec![0; program.cells()],
    };
    replace(session, &started)?;
    Ok(at_line(&started.place))
}

type Moves = fn(&Program, &Place, &mut [i32], u32) -> Run;

fn move_session(file: &Path, session: &Path, n: u32, moves: Moves) -> Result<String, Trouble> {
    let (program, mut current) = open_session(file, session)?;
    let ran = moves(&program, &current.place, &mut current.store, n);
    let answer = steps_line(&ran) + &at_line(&ran.place);
    current.place = ran.place;
    replace(session, &current)?;
    Ok(answer)
}

fn set_cell(file: &Path, session: &Path, cell: u32, value: i32) -> Result<String, Trouble> {
    let (_, mut current) = open_session(file, session)?;
    let number = usize::try_from(cell).map_err(|_| Trouble::WrongWords)?;
    *current.store.get_mut(number).ok_or(Trouble::WrongWords)? = value;
    replace(session, &current)?;
    Ok(String::new())
}

fn show_session(file: &Path, session: &Path) -> Result<String, Trouble> {
    let (_, current) = open_session(file, session)?;
    let frames = frame_lines(&current.place);
    Ok(at_line(&current.place) + &frames + &cell_lines(&current.store))
}

/// Both files are read before either is judged.
fn open_session(file: &Path, session: &Path) -> Result<(Program, Session), Trouble> {
    let file = read_program(file)?;
    let saved = read_file(session, MAX_SESSION + 1)?;
    let program = check(&file)?;
    let current = read_session(&program, &saved, program.cells())?;
    Ok((program, current))
}

fn read_program(file: &Path) -> Result<Vec<u8>, Trouble> {
    read_file(file, MAX_FILE + 1)
}

fn read_file(name: &Path, most: usize) -> Result<Vec<u8>, Trouble> {
    File::open(name)
        .and_then(|file| read_at_most(file, most))
        .map_err(|reason| file_trouble(name, reason))
}

/// One byte more than is allowed is enough to know that a file is too long.
fn read_at_most(source: impl Read, most: usize) -> io::Result<Vec<u8>> {
    let mut bytes = vec![];
    source.take(most as u64).read_to_end(&mut bytes)?;
    Ok(bytes)
}

fn file_trouble(name: &Path, reason: io::Error) -> Trouble {
    Trouble::File(name.display().to_string(), reason)
}

/// A new file beside the old, synced, then renamed over it: a crash leaves one of them whole.
fn replace(session: &Path, content: &Session) -> Result<(), Trouble> {
    let new = name_beside(session);
    let written = write_new(&new, &content.encode());
    let renamed = written.and_then(|()| std::fs::rename(&new, session));
    renamed.map_err(|reason| {
        // The file may not be there; the first reason is the one to tell.
        let _ = std::fs::remove_file(&new);
        file_trouble(session, reason)
    })
}

/// The process number keeps two commands at once from writing one file.
fn name_beside(session: &Path) -> PathBuf {
    let mut name = session.as_os_str().to_os_string();
    name.push(format!(".new{}", std::process::id()));
    PathBuf::from(name)
}

fn write_new(name: &Path, bytes: &[u8]) -> io::Result<()> {
    let mut file = File::create(name)?;
    file.write_all(bytes)?;
    file.sync_all()
}

pub fn accepted_line(program: &Program) -> String {
    format!(
        "accepted records {} procedures {} cells {}\n",
        program.records.len(),
        program.procedures.len(),
        program.cells()
    )
}

fn steps_line(ran: &Run) -> String {
    let reason = ran.reason.map_or(0, |number| number.value());
    format!("steps {} stop {}\n", ran.steps, reason)
}

fn at_line(place: &Place) -> String {
    format!("at {} {} {}\n", place.a, place.b, place.direction.word())
}

fn frame_lines(place: &Place) -> String {
    let mut text = String::new();
    for frame in &place.frames {
        writeln!(text, "frame {} {}", frame.kind, frame.label).expect("a String takes all");
    }
    text
}

fn cell_lines(store: &[i32]) -> String {
    let mut text = String::new();
    for (number, value) in store.iter().enumerate().filter(|(_, value)| **value != 0) {
        writeln!(text, "cell {number} {value}").expect("a String takes all");
    }
    text
}
