//! `bench` held to this program: the same random commands on both, each in its own folder, and everything that they leave compared.

use crate::builder::example;
use crate::command::USAGE;
use crate::damage;
use crate::examples;
use crate::generator::{self, EDGES};
use crate::rng::Rng;
use std::collections::BTreeMap;
use std::ffi::{OsStr, OsString};
use std::fs;
use std::io;
use std::os::unix::ffi::OsStrExt;
use std::path::{Path, PathBuf};
use std::process::{Command, Output, Stdio};

/// What `bench` says of wrong words; its commands are fewer.
const BENCH_USAGE: &str = "usage: bench check FILE | start FILE SESSION [down|up] | \
step FILE SESSION [N] | back FILE SESSION [N] | set FILE SESSION CELL VALUE | show FILE SESSION";

/// Words that are no number, or one that only just is.
const NATURALS: [&str; 14] = [
    "0",
    "00",
    "007",
    "0000000001",
    "00000000001",
    "4294967296",
    "9999999999",
    "",
    "+1",
    "-1",
    "-0",
    "1x",
    " 1",
    "ten",
];

const INTEGERS: [&str; 16] = [
    "2147483647",
    "2147483648",
    "-2147483648",
    "-2147483649",
    "-0",
    "0000000000",
    "-0000000012",
    "00000000000",
    "-00000000000",
    "-",
    "--1",
    "+1",
    "",
    "1-",
    "0x1",
    "99999999999999999999999999999999999999",
];

/// Names of files that cannot be read or written.
const BAD_NAMES: [&str; 6] = [
    "none",
    "none/s.ses",
    "folder",
    "p.lad/s.ses",
    "",
    "folder/../none",
];

/// The system's number for bytes that are no text.
const EILSEQ: i32 = 84;

/// How many walks and commands were equal, and how often each first answer was met.
pub struct Compared {
    walks: u32,
    commands: u32,
    met: BTreeMap<String, u32>,
}

impl Compared {
    pub fn text(&self) -> String {
        let met: Vec<String> = self
            .met
            .iter()
            .map(|(what, count)| format!("{what}: {count}"))
            .collect();
        let (walks, commands) = (self.walks, self.commands);
        format!(
            "met {}\ncompare: {walks} walks, {commands} commands, equal\n",
            met.join(", ")
        )
    }
}

/// Two folders with the same files, one for each program.
struct Pair {
    programs: [PathBuf; 2],
    folders: [PathBuf; 2],
}

/// The walks of a seed; a difference is told in the error.
pub fn compare(bench: &Path, seed: u32, count: u32) -> io::Result<Compared> {
    let root = std::env::temp_dir().join(format!("compare{}", std::process::id()));
    let pair = Pair {
        programs: [std::env::current_exe()?, fs::canonicalize(bench)?],
        folders: [root.join("second"), root.join("bench")],
    };
    let compared = pair.walks(u64::from(seed), count);
    fs::remove_dir_all(&root)?;
    compared
}

impl Pair {
    fn walks(&self, seed: u64, count: u32) -> io::Result<Compared> {
        let mut compared = Compared {
            walks: 0,
            commands: 0,
            met: BTreeMap::new(),
        };
        for number in 0..count {
            let mut rng = Rng::new(seed.wrapping_mul(1_000_003).wrapping_add(u64::from(number)));
            self.clear()?;
            self.walk(&mut rng, &mut compared).map_err(|reason| {
                io::Error::other(format!("seed {seed} walk {number}: {reason}"))
            })?;
            compared.walks += 1;
        }
        Ok(compared)
    }

    fn clear(&self) -> io::Result<()> {
        for folder in &self.folders {
            if folder.exists() {
                fs::remove_dir_all(folder)?;
            }
            fs::create_dir_all(folder.join("folder"))?;
        }
        Ok(())
    }

    fn write(&self, name: &str, bytes: &[u8]) -> io::Result<()> {
        for folder in &self.folders {
            fs::write(folder.join(name), bytes)?;
        }
        Ok(())
    }

    /// A program, a session, and some commands with damage between them.
    fn walk(&self, rng: &mut Rng, compared: &mut Compared) -> io::Result<()> {
        let file = program(rng);
        self.write("p.lad", &file)?;
        self.command(&words(&["start", "p.lad", "s.ses"]), compared)?;
        for _ in 0..8 + rng.below(8) {
            match rng.below(20) {
                0 => self.damage_session(rng)?,
                1 => self.write("p.lad", &damage::program_file(rng, &file))?,
                2 => self.write("p.lad", &file)?,
                _ => self.command(&command(rng), compared)?,
            }
        }
        Ok(())
    }

    /// The same damage on both sides, if there is a session.
    fn damage_session(&self, rng: &mut Rng) -> io::Result<()> {
        let sound = fs::read(self.folders[0].join("s.ses")).unwrap_or_default();
        let damaged = match rng.below(8) {
            0 => vec![rng.byte(); 69_959 + rng.below(4)],
            _ => damage::session_file(rng, &sound),
        };
        self.write("s.ses", &damaged)
    }

    /// One command on both sides, and everything that it left.
    fn command(&self, words: &[OsString], compared: &mut Compared) -> io::Result<()> {
        let before = content(&self.folders[1])?;
        let [second, bench] = [self.run(0, words)?, self.run(1, words)?];
        *compared.met.entry(first_answer(&second)).or_default() += 1;
        compared.commands += 1;
        // `bench` ends with 0, whatever it tells.
        let same = second.stdout == bench.stdout
            && as_bench(&second.stderr) == String::from_utf8_lossy(&bench.stderr)
            && bench.status.code() == Some(0)
            && content(&self.folders[0])? == content(&self.folders[1])?;
        if same || self.refuses_name(words, &before, &bench)? {
            return Ok(());
        }
        let told = format!("{words:?} differs:\n{second:?}\n{bench:?}");
        Err(io::Error::other(told))
    }

    /// `bench` opens files by names that are text: another is the system's error for such bytes, and nothing else comes of it.
    /// A file that this program made under that name goes again.
    fn refuses_name(
        &self,
        words: &[OsString],
        before: &BTreeMap<OsString, Vec<u8>>,
        bench: &Output,
    ) -> io::Result<bool> {
        let mut names = words.iter().skip(1).take(2);
        let Some(name) = names.find(|name| name.to_str().is_none()) else {
            return Ok(false);
        };
        let made = self.folders[0].join(name);
        if made.exists() {
            fs::remove_file(made)?;
        }
        let why = io::Error::from_raw_os_error(EILSEQ);
        let complaint = format!("bench: {}: {why}\n", name.to_string_lossy());
        Ok(bench.stdout.is_empty()
            && String::from_utf8_lossy(&bench.stderr) == complaint
            && bench.status.code() == Some(0)
            && content(&self.folders[1])? == *before)
    }

    fn run(&self, side: usize, words: &[OsString]) -> io::Result<Output> {
        Command::new(&self.programs[side])
            .args(words)
            .current_dir(&self.folders[side])
            .stdin(Stdio::null())
            .output()
    }
}

/// The complaint that `bench` has to make where this program made this one.
fn as_bench(complaint: &[u8]) -> String {
    let text = String::from_utf8_lossy(complaint);
    if text == format!("{USAGE}\n") {
        return format!("{BENCH_USAGE}\n");
    }
    match text.strip_prefix("second: ") {
        Some(rest) => format!("bench: {rest}"),
        None => text.into_owned(),
    }
}

/// Each file below a folder with its bytes; a folder has none.
fn content(folder: &Path) -> io::Result<BTreeMap<OsString, Vec<u8>>> {
    let mut files = BTreeMap::new();
    for entry in fs::read_dir(folder)? {
        let path = entry?.path();
        let bytes = if path.is_dir() {
            vec![]
        } else {
            fs::read(&path)?
        };
        files.insert(path.file_name().unwrap_or_default().to_os_string(), bytes);
    }
    Ok(files)
}

/// The refusal or reason, or what kind of answer it was.
fn first_answer(output: &Output) -> String {
    let text = String::from_utf8_lossy(&output.stdout);
    let first: Vec<&str> = text.lines().next().unwrap_or("").split(' ').collect();
    match (output.status.code(), first.as_slice()) {
        (Some(1), _) => "complaint".to_string(),
        (Some(2), _) => "wrong words".to_string(),
        (_, ["refused", number, ..]) => format!("refused {number}"),
        (_, ["steps", _, "stop", number]) => format!("stop {number}"),
        (_, [""]) => "set".to_string(),
        (_, [word, ..]) => (*word).to_string(),
        (_, []) => "nothing".to_string(),
    }
}

fn program(rng: &mut Rng) -> Vec<u8> {
    match rng.below(10) {
        0 => example().encode(),
        1 => rng.pick(&examples::all()).tree.encode(),
        2 => damage::program_file(rng, &example().encode()),
        _ => generator::program(rng).encode(),
    }
}

fn words(list: &[&str]) -> Vec<OsString> {
    list.iter().map(OsString::from).collect()
}

/// Any command: mostly a right one, now and then with a bad name, a bad number or a word too many.
fn command(rng: &mut Rng) -> Vec<OsString> {
    let mut list = right_command(rng);
    match rng.below(40) {
        0 => list[1] = name(rng),
        1 | 2 if list.len() > 2 => list[2] = name(rng),
        3 => list.push(OsString::from("1")),
        4 => list.truncate(rng.below(list.len())),
        5 => list[0] = OsString::from(*rng.pick(&["steps", "Show", "", "sets"])),
        6 => *list.last_mut().expect("a word") = OsStr::from_bytes(b"\xff1").to_os_string(),
        _ => {}
    }
    list
}

/// A name that is there, not there, too long, or not text.
fn name(rng: &mut Rng) -> OsString {
    match rng.below(8) {
        0 => OsString::from("n".repeat(300)),
        1 => OsString::from("n/".repeat(2_060 + rng.below(8))),
        2 => OsString::from("n".repeat(131_000)),
        3 => OsString::from("p.lad"),
        _ => OsString::from(*rng.pick(&BAD_NAMES)),
    }
}

fn right_command(rng: &mut Rng) -> Vec<OsString> {
    let steps = number(rng);
    let (cell, value) = (cell(rng), value(rng));
    match rng.below(20) {
        0 => words(&["check", "p.lad"]),
        1 => words(&["start", "p.lad", "s.ses"]),
        2 => words(&[
            "start",
            "p.lad",
            "s.ses",
            *rng.pick(&["down", "up", "up", "Up", ""]),
        ]),
        3 => words(&["step", "p.lad", "s.ses"]),
        4 => words(&["back", "p.lad", "s.ses"]),
        5..=9 => words(&["step", "p.lad", "s.ses", &steps]),
        10..=13 => words(&["back", "p.lad", "s.ses", &steps]),
        14 | 15 => words(&["set", "p.lad", "s.ses", &cell, &value]),
        _ => words(&["show", "p.lad", "s.ses"]),
    }
}

/// Steps that also an endless program makes at once.
fn number(rng: &mut Rng) -> String {
    match rng.below(12) {
        0 => rng.pick(&NATURALS).to_string(),
        1 => rng.below(20_000).to_string(),
        2 | 3 => rng.below(300).to_string(),
        _ => rng.below(12).to_string(),
    }
}

fn cell(rng: &mut Rng) -> String {
    match rng.below(12) {
        0 => rng.pick(&NATURALS).to_string(),
        1 => rng.pick(&["2047", "2048", "4294967295"]).to_string(),
        _ => rng.below(10).to_string(),
    }
}

fn value(rng: &mut Rng) -> String {
    match rng.below(6) {
        0 => rng.pick(&INTEGERS).to_string(),
        1 | 2 => rng.pick(&EDGES).to_string(),
        3 => rng.value().to_string(),
        _ => rng.below(5).to_string(),
    }
}
