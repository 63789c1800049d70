//! A bench for tests: one program, its place and its store, moved by the calls of document 01.
#![allow(dead_code)]

use second::builder::Tree;
use second::calls::{self, Answer, RunAnswer};
use second::lent::LentPlace;
use second::number::Refusal;
use second::place::{Direction, Frame, Place};

pub struct Bench {
    pub file: Vec<u8>,
    pub place: LentPlace,
    pub store: Vec<i32>,
}

impl Bench {
    /// At the start, on zeros.
    pub fn new(tree: &Tree, direction: Direction) -> Bench {
        let file = tree.encode();
        let program = second::check::check(&file).expect("a sound program");
        Bench {
            place: LentPlace::of(&Place::start(&program, direction)),
            store: vec![0; program.cells()],
            file,
        }
    }

    pub fn down(tree: &Tree) -> Bench {
        Bench::new(tree, Direction::Down)
    }

    pub fn up(tree: &Tree) -> Bench {
        Bench::new(tree, Direction::Up)
    }

    /// The number of a refused step, 0 where it arrived; the place moves on.
    pub fn step(&mut self) -> u8 {
        let answer = calls::step(&self.file, &self.place, &mut self.store);
        self.take(answer)
    }

    pub fn back(&mut self) -> u8 {
        let answer = calls::back(&self.file, &self.place, &mut self.store);
        self.take(answer)
    }

    fn take(&mut self, answer: Answer) -> u8 {
        self.place = answer.place;
        plain_number(answer.refusal)
    }

    /// Steps made and the reason.
    pub fn run(&mut self, n: u32) -> (u32, u8) {
        let answer = calls::run(&self.file, &self.place, &mut self.store, n);
        self.take_run(answer)
    }

    pub fn run_back(&mut self, n: u32) -> (u32, u8) {
        let answer = calls::run_back(&self.file, &self.place, &mut self.store, n);
        self.take_run(answer)
    }

    fn take_run(&mut self, answer: RunAnswer) -> (u32, u8) {
        self.place = answer.place;
        (answer.steps, plain_number(answer.refusal))
    }

    /// `A B way` and then each frame as `KIND:LABEL`, innermost first.
    pub fn at(&self) -> String {
        let place = self.place.place().expect("a place");
        let mut text = format!("{} {} {}", place.a, place.b, place.direction.word());
        for frame in &place.frames {
            text += &format!(" {}:{}", frame.kind, frame.label);
        }
        text
    }

    /// Steps and says where it is after each, until a refusal, whose number comes last.
    pub fn walk(&mut self) -> Vec<String> {
        let mut visited = vec![];
        loop {
            match self.step() {
                0 => visited.push(self.at()),
                number => {
                    visited.push(number.to_string());
                    return visited;
                }
            }
        }
    }
}

/// The number of a refusal of a sound program, which has no record; 0 where there is none.
fn plain_number(refusal: Option<Refusal>) -> u8 {
    refusal.map_or(0, |refusal| {
        assert_eq!(refusal.record, None);
        refusal.number.value()
    })
}

pub fn lent(direction: Direction, a: u16, b: u16, frames: &[(u16, u16)]) -> LentPlace {
    LentPlace::of(&Place {
        direction,
        a,
        b,
        frames: frames.iter().map(|&(k, l)| Frame::new(k, l)).collect(),
    })
}
