//! Places, and when a place fits a program.

use crate::program::{Inside, Program};

pub const MAX_CALLS: usize = 64;
pub const MAX_FRAMES: usize = 1104;

#[derive(Clone, Copy, Debug, PartialEq, Eq)]
pub enum Direction {
    Down,
    Up,
}

impl Direction {
    pub fn opposite(self) -> Direction {
        match self {
            Direction::Down => Direction::Up,
            Direction::Up => Direction::Down,
        }
    }

    pub fn code(self) -> u8 {
        match self {
            Direction::Down => 0,
            Direction::Up => 1,
        }
    }

    pub fn from_code(code: u8) -> Option<Direction> {
        match code {
            0 => Some(Direction::Down),
            1 => Some(Direction::Up),
            _ => None,
        }
    }

    pub fn word(self) -> &'static str {
        match self {
            Direction::Down => "down",
            Direction::Up => "up",
        }
    }
}

/// The kind stays a number, since a lent frame may hold any.
#[derive(Clone, Copy, Debug, PartialEq, Eq)]
pub struct Frame {
    pub kind: u16,
    pub label: u16,
}

impl Frame {
    pub const TRUE: u16 = 0;
    pub const FALSE: u16 = 1;
    pub const FIRST: u16 = 2;
    pub const SECOND: u16 = 3;
    pub const CALL: u16 = 4;

    pub fn new(kind: u16, label: u16) -> Frame {
        Frame { kind, label }
    }

    pub fn is_call(self) -> bool {
        self.kind == Frame::CALL
    }

    /// What an unused slot holds.
    pub fn is_empty(self) -> bool {
        self.kind == 0 && self.label == 0
    }
}

/// An edge (a, b) in a direction, with frames innermost first.
#[derive(Clone, Debug, PartialEq, Eq)]
pub struct Place {
    pub direction: Direction,
    pub a: u16,
    pub b: u16,
    pub frames: Vec<Frame>,
}

impl Place {
    /// (BEGIN, first entry) of main down, or (END, last exit) of main up, no frames.
    pub fn start(program: &Program, direction: Direction) -> Place {
        let main = program.procedure(0);
        let (first, last) = (&main.body[0], &main.body[main.body.len() - 1]);
        let (a, b) = match direction {
            Direction::Down => (main.begin, first.entry()),
            Direction::Up => (main.end, last.exit()),
        };
        Place {
            direction,
            a,
            b,
            frames: vec![],
        }
    }

    pub fn turned(self) -> Place {
        Place {
            direction: self.direction.opposite(),
            a: self.b,
            b: self.a,
            frames: self.frames,
        }
    }

    pub fn calls(&self) -> usize {
        self.frames.iter().filter(|frame| frame.is_call()).count()
    }

    /// Document 01's four conditions, in its order.
    pub fn fits(&self, program: &Program) -> bool {
        let Some(edge) = program.edge(self.a, self.b, self.direction) else {
            return false;
        };
        frames_fit(program, edge, &self.frames) && self.calls() <= MAX_CALLS
    }
}

/// The frames down to the first call, and what lies from that call outward.
pub fn down_to_call(frames: &[Frame]) -> (&[Frame], &[Frame]) {
    let length = frames.iter().take_while(|frame| !frame.is_call()).count();
    frames.split_at(length)
}

/// From the innermost outward: constructs of the spot, then the call that led to it, and so on.
fn frames_fit(program: &Program, innermost: &Inside, frames: &[Frame]) -> bool {
    let mut inside = innermost;
    let mut rest = frames;
    loop {
        let (constructs, outward) = down_to_call(rest);
        if constructs != inside.constructs {
            return false;
        }
        let Some((call, beyond)) = outward.split_first() else {
            return inside.procedure == 0;
        };
        let Some(caller) = program.caller(call.label) else {
            return false;
        };
        if program.callee(call.label) != Some(inside.procedure) {
            return false;
        }
        inside = caller;
        rest = beyond;
    }
}
