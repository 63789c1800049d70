//! The stream that walks and sessions are told in: command lines that set and move one desk,
//! and the answer line of each that moves, reads or saves.

use crate::calls::{self, Answer, RunAnswer};
use crate::lent::LentPlace;
use crate::number::Refusal;
use crate::place::{Direction, Frame, MAX_FRAMES};
use crate::vectors::{from_hex, to_hex};
use std::fmt::{self, Write as _};

/// Longer stores and buffers are no case.
pub const MAX_LENGTH: usize = 100_000;

/// One command line.
#[derive(Clone, Debug, PartialEq, Eq)]
pub enum Line {
    /// `p HEX`: the program's bytes.
    Program(Vec<u8>),
    /// `c V V ...`: the store, all its cells.
    Store(Vec<i32>),
    /// `n LEN`: the store, so many zeros.
    Zeros(usize),
    /// `l D A B COUNT K L ...`: the place, its unused slots 0.
    Place(LentPlace),
    /// `x I K L`: the unused slot COUNT + I of the place.
    Slot(usize, Frame),
    /// `s D`.
    Start(Direction),
    /// `f`.
    Step,
    /// `b`.
    Back,
    /// `r N`.
    Run(u32),
    /// `q N`.
    RunBack(u32),
    /// `o HEX`: a session file's bytes.
    Read(Vec<u8>),
    /// `v LEN FILL`: a buffer of LEN bytes that all hold FILL.
    Save(usize, u8),
}

impl Line {
    /// None where the text is no command line.
    pub fn parse(text: &str) -> Option<Line> {
        let words: Vec<&str> = text.split(' ').collect();
        let (name, rest) = words.split_first()?;
        Some(match (*name, rest) {
            ("p", hex) => Line::Program(bytes(hex)?),
            ("c", cells) => Line::Store(numbers(cells)?),
            ("n", [length]) => Line::Zeros(limited(length)?),
            ("l", [direction, a, b, count, frames @ ..]) => {
                Line::Place(lent_place([direction, a, b, count], frames)?)
            }
            ("x", [slot, kind, label]) => Line::Slot(
                slot.parse().ok()?,
                Frame::new(kind.parse().ok()?, label.parse().ok()?),
            ),
            ("s", [code]) => Line::Start(Direction::from_code(code.parse().ok()?)?),
            ("f", []) => Line::Step,
            ("b", []) => Line::Back,
            ("r", [n]) => Line::Run(n.parse().ok()?),
            ("q", [n]) => Line::RunBack(n.parse().ok()?),
            ("o", hex) => Line::Read(bytes(hex)?),
            ("v", [length, fill]) => Line::Save(limited(length)?, fill.parse().ok()?),
            _ => return None,
        })
    }

    /// Whether the walks have it too.
    pub fn is_of_walks(&self) -> bool {
        !matches!(self, Line::Zeros(_) | Line::Read(_) | Line::Save(_, _))
    }
}

/// No word is the empty row of bytes.
fn bytes(words: &[&str]) -> Option<Vec<u8>> {
    match words {
        [] => Some(vec![]),
        [hex] if !hex.is_empty() => from_hex(hex),
        _ => None,
    }
}

fn numbers(words: &[&str]) -> Option<Vec<i32>> {
    words.iter().map(|word| word.parse().ok()).collect()
}

fn limited(word: &str) -> Option<usize> {
    word.parse().ok().filter(|length| *length <= MAX_LENGTH)
}

/// The listed frames are the innermost ones; the other used slots are 0 0.
fn lent_place(head: [&str; 4], words: &[&str]) -> Option<LentPlace> {
    let [direction, a, b, count] = head;
    let numbers: Option<Vec<u16>> = words.iter().map(|word| word.parse().ok()).collect();
    let numbers = numbers?;
    let mut place = LentPlace {
        direction: direction.parse().ok()?,
        a: a.parse().ok()?,
        b: b.parse().ok()?,
        count: count.parse().ok()?,
        ..LentPlace::blank()
    };
    let listed = numbers.len() / 2;
    if numbers.len() % 2 != 0 || listed > place.used().len() {
        return None;
    }
    for (slot, pair) in place.slots.iter_mut().zip(numbers.chunks(2)) {
        *slot = Frame::new(pair[0], pair[1]);
    }
    Some(place)
}

impl fmt::Display for Line {
    fn fmt(&self, out: &mut fmt::Formatter<'_>) -> fmt::Result {
        match self {
            Line::Program(file) => write_hex(out, "p", file),
            Line::Store(cells) => {
                write!(out, "c")?;
                cells.iter().try_for_each(|cell| write!(out, " {cell}"))
            }
            Line::Zeros(length) => write!(out, "n {length}"),
            Line::Place(place) => write!(out, "l {}", listed(place)),
            Line::Slot(slot, frame) => write!(out, "x {slot} {} {}", frame.kind, frame.label),
            Line::Start(direction) => write!(out, "s {}", direction.code()),
            Line::Step => write!(out, "f"),
            Line::Back => write!(out, "b"),
            Line::Run(n) => write!(out, "r {n}"),
            Line::RunBack(n) => write!(out, "q {n}"),
            Line::Read(saved) => write_hex(out, "o", saved),
            Line::Save(length, fill) => write!(out, "v {length} {fill}"),
        }
    }
}

fn write_hex(out: &mut fmt::Formatter<'_>, name: &str, bytes: &[u8]) -> fmt::Result {
    match bytes {
        [] => write!(out, "{name}"),
        _ => write!(out, "{name} {}", to_hex(bytes)),
    }
}

/// Head and used frames without the outermost that are 0 0.
fn listed(place: &LentPlace) -> String {
    let used = place.used();
    let empty = used.iter().rev().take_while(|frame| frame.is_empty());
    let length = used.len() - empty.count();
    head(place) + &frames(&used[..length])
}

fn head(place: &LentPlace) -> String {
    let LentPlace {
        direction,
        a,
        b,
        count,
        ..
    } = place;
    format!("{direction} {a} {b} {count}")
}

fn frames(list: &[Frame]) -> String {
    list.iter()
        .map(|frame| format!(" {} {}", frame.kind, frame.label))
        .collect()
}

/// The program, place and store that the lines set and move.
#[derive(Clone, Debug, PartialEq, Eq)]
pub struct Desk {
    pub file: Vec<u8>,
    pub place: LentPlace,
    pub store: Vec<i32>,
}

/// A line that sets a slot which is not there.
#[derive(Clone, Copy, Debug, PartialEq, Eq)]
pub struct NoSuchSlot;

impl Default for Desk {
    fn default() -> Desk {
        Desk {
            file: vec![],
            place: LentPlace::blank(),
            store: vec![],
        }
    }
}

impl Desk {
    /// The answer line; none for a line that only sets something.
    pub fn take(&mut self, line: &Line) -> Result<Option<String>, NoSuchSlot> {
        match line {
            Line::Program(file) => self.file.clone_from(file),
            Line::Store(cells) => self.store.clone_from(cells),
            Line::Zeros(length) => self.store = vec![0; *length],
            Line::Place(place) => self.place.clone_from(place),
            Line::Slot(slot, frame) => self.set_slot(*slot, *frame)?,
            _ => return Ok(Some(self.answer(line))),
        }
        Ok(None)
    }

    fn answer(&mut self, line: &Line) -> String {
        let Desk { file, place, store } = self;
        match line {
            Line::Start(direction) => self.start(*direction),
            Line::Step => {
                let answer = calls::step(file, place, store);
                self.moved(answer)
            }
            Line::Back => {
                let answer = calls::back(file, place, store);
                self.moved(answer)
            }
            Line::Run(n) => {
                let answer = calls::run(file, place, store, *n);
                self.ran(answer)
            }
            Line::RunBack(n) => {
                let answer = calls::run_back(file, place, store, *n);
                self.ran(answer)
            }
            Line::Read(saved) => {
                let answer = calls::read(file, saved, store);
                self.place = answer.place;
                format!("{} {}", number_and_record(answer.refusal), self.state())
            }
            Line::Save(length, fill) => self.save(*length, *fill),
            _ => unreachable!("a line that only sets something has no answer"),
        }
    }

    fn set_slot(&mut self, slot: usize, frame: Frame) -> Result<(), NoSuchSlot> {
        let at = usize::from(self.place.count).checked_add(slot);
        let slot = at.and_then(|at| self.place.slots.get_mut(at));
        *slot.ok_or(NoSuchSlot)? = frame;
        Ok(())
    }

    /// A refused start answers the blank place.
    fn start(&mut self, direction: Direction) -> String {
        let (refusal, place) = match calls::start(&self.file, direction) {
            Ok(place) => (None, LentPlace::of(&place)),
            Err(refusal) => (Some(refusal), LentPlace::blank()),
        };
        self.place = place;
        self.steps_and_state(refusal, 0)
    }

    fn moved(&mut self, answer: Answer) -> String {
        self.place = answer.place;
        let steps = u32::from(answer.refusal.is_none());
        self.steps_and_state(answer.refusal, steps)
    }

    fn ran(&mut self, answer: RunAnswer) -> String {
        self.place = answer.place;
        self.steps_and_state(answer.refusal, answer.steps)
    }

    fn save(&self, length: usize, fill: u8) -> String {
        let mut buffer = vec![fill; length];
        let answer = calls::save(&self.file, &self.place, &self.store, &mut buffer);
        let head = number_and_record(answer.refusal);
        let line = format!("{head} {} {}", answer.written, to_hex(&buffer));
        line.trim_end().to_string()
    }

    fn steps_and_state(&self, refusal: Option<Refusal>, steps: u32) -> String {
        format!("{} {steps} {}", number_and_record(refusal), self.state())
    }

    /// The place with every used frame and every unused slot that is not 0, then the nonzero cells.
    pub fn state(&self) -> String {
        let mut text = head(&self.place) + &frames(self.place.used());
        for (slot, frame) in self.place.unused().iter().enumerate() {
            if !frame.is_empty() {
                write!(text, " x {slot} {} {}", frame.kind, frame.label)
                    .expect("a String takes all");
            }
        }
        text += " |";
        for (cell, value) in self.store.iter().enumerate() {
            if *value != 0 {
                write!(text, " {cell}={value}").expect("a String takes all");
            }
        }
        text
    }
}

/// The document's number and the record, 0 where there is none.
fn number_and_record(refusal: Option<Refusal>) -> String {
    let number = refusal.map_or(0, |refusal| refusal.number.value());
    let record = refusal.and_then(|refusal| refusal.record).unwrap_or(0);
    format!("{number} {record}")
}

/// The answer lines of a stream, or the number (from 1) of the first line that is none of it.
pub fn answers(cases: &str, is_of_family: fn(&Line) -> bool) -> Result<String, usize> {
    let mut desk = Desk::default();
    let mut text = String::new();
    for (at, line) in cases.lines().enumerate() {
        let line = Line::parse(line).filter(is_of_family).ok_or(at + 1)?;
        if let Some(answer) = desk.take(&line).map_err(|NoSuchSlot| at + 1)? {
            text += &answer;
            text.push('\n');
        }
    }
    Ok(text)
}

/// Writes a stream and takes each line at once, so that the next can depend on where it led.
#[derive(Default)]
pub struct Script {
    text: String,
    pub desk: Desk,
}

impl Script {
    /// The answer line; empty where there is none.
    pub fn say(&mut self, line: Line) -> String {
        writeln!(self.text, "{line}").expect("a String takes all");
        let answer = self.desk.take(&line).expect("slots that are there");
        answer.unwrap_or_default()
    }

    /// Whether the line was refused with that number (0: not refused).
    pub fn says(&mut self, line: Line, number: u8) -> bool {
        self.say(line).split(' ').next() == Some(&number.to_string())
    }

    pub fn program(&mut self, file: &[u8]) {
        self.say(Line::Program(file.to_vec()));
    }

    pub fn store(&mut self, cells: &[i32]) {
        self.say(Line::Store(cells.to_vec()));
    }

    /// The place, with a line for each unused slot that is not 0.
    pub fn place(&mut self, place: &LentPlace) {
        let mut sound = place.clone();
        let used = place.used().len();
        sound.slots[used..MAX_FRAMES].fill(Frame::new(0, 0));
        self.say(Line::Place(sound));
        for (slot, frame) in place.unused().iter().enumerate() {
            if !frame.is_empty() {
                self.say(Line::Slot(slot, *frame));
            }
        }
    }

    pub fn all(&mut self, lines: &[Line]) {
        for line in lines {
            self.say(line.clone());
        }
    }

    pub fn into_text(self) -> String {
        self.text
    }
}
