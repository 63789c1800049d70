//! The run: a step executes the record at `label`, down or up.

use crate::expression::{Expression, Operator, Stop, Store};
use crate::program::{Program, Record, Target};

const MOST_CALLS: usize = 64;

/// With the label of IF, FROM, CALL or UNCALL.
#[derive(Debug, PartialEq)]
pub enum Frame {
    True(usize),
    False(usize),
    First(usize),
    Second(usize),
    Call(usize),
}

pub struct Machine<'a> {
    pub program: &'a Program,
    pub store: Store,
    pub label: usize,
    pub down: bool,
    /// The innermost last.
    pub frames: Vec<Frame>,
    pub calls: usize,
}

impl Machine<'_> {
    /// On zeros, at the start of main down.
    pub fn start(program: &Program) -> Machine<'_> {
        let scalars = vec![0; program.scalars];
        let arrays = program.lengths.iter().map(|n| vec![0; *n]).collect();
        Machine {
            program,
            store: Store { scalars, arrays },
            label: program.procedures[0].0 + 1,
            down: true,
            frames: vec![],
            calls: 0,
        }
    }

    /// Steps made, and why it stopped; none where all n were made.
    pub fn run(&mut self, n: u32) -> (u32, Option<Stop>) {
        for made in 0..n {
            if let Err(stop) = self.step() {
                return (made, Some(stop));
            }
        }
        (n, None)
    }

    fn step(&mut self) -> Result<(), Stop> {
        match (&self.program.records[self.label], self.down) {
            (Record::Set(by, target, change), true) => self.set(*by, target, change),
            (Record::Set(by, target, change), false) => self.set(by.opposite(), target, change),
            (Record::If(test), true) | (Record::Fi(test), false) => self.choose(test),
            (Record::Fi(test), true) | (Record::If(test), false) => self.close(test),
            (Record::From(test), true) | (Record::Until(test), false) => self.open(test),
            (Record::Until(test), true) | (Record::From(test), false) => self.test(test),
            (Record::Call(procedure), down) => self.call(*procedure, down),
            (Record::Uncall(procedure), down) => self.call(*procedure, !down),
            (Record::End, true) | (Record::Begin, false) => self.finish(),
            _ => self.leave(),
        }
    }

    fn go(&mut self, down: usize, up: usize) -> Result<(), Stop> {
        self.label = if self.down { down } else { up };
        Ok(())
    }

    /// From an exit down, from an entry up: to the neighbour, or to where ELSE, LOOP and UNTIL lead.
    fn leave(&mut self) -> Result<(), Stop> {
        self.go(self.label + 1, self.label - 1)?;
        let [head, _, end] = self.program.constructs[self.label];
        match (&self.program.records[self.label], self.down) {
            (Record::Else, true) | (Record::Loop, _) => self.label = end,
            (Record::Else, false) | (Record::Until(_), true) => self.label = head,
            _ => {}
        }
        Ok(())
    }

    fn set(&mut self, by: Operator, target: &Target, change: &Expression) -> Result<(), Stop> {
        match target {
            Target::Scalar(number) => {
                let change = change.value(&self.store)?;
                let cell = &mut self.store.scalars[*number];
                *cell = by.apply(*cell, change)?;
            }
            Target::Entry(array, index) => {
                let index = self.store.index(*array, index.value(&self.store)?)?;
                let change = change.value(&self.store)?;
                let cell = &mut self.store.arrays[*array][index];
                *cell = by.apply(*cell, change)?;
            }
        }
        self.leave()
    }

    /// IF down, FI up.
    fn choose(&mut self, test: &Expression) -> Result<(), Stop> {
        let [head, middle, end] = self.program.constructs[self.label];
        if test.value(&self.store)? != 0 {
            self.frames.push(Frame::True(head));
            self.go(head + 1, middle - 1)
        } else {
            self.frames.push(Frame::False(head));
            self.go(middle + 1, end - 1)
        }
    }

    /// FI down, IF up.
    fn close(&mut self, test: &Expression) -> Result<(), Stop> {
        let took_true = matches!(self.frames.last(), Some(Frame::True(_)));
        if (test.value(&self.store)? != 0) != took_true {
            return Err(Stop::WrongValue);
        }
        self.frames.pop();
        self.leave()
    }

    /// FROM down, UNTIL up.
    fn open(&mut self, test: &Expression) -> Result<(), Stop> {
        let [head, middle, _] = self.program.constructs[self.label];
        let from_second = self.frames.last() == Some(&Frame::Second(head));
        if (test.value(&self.store)? != 0) == from_second {
            return Err(Stop::WrongValue);
        }
        if from_second {
            self.frames.pop();
        }
        self.frames.push(Frame::First(head));
        self.go(head + 1, middle - 1)
    }

    /// UNTIL down, FROM up.
    fn test(&mut self, test: &Expression) -> Result<(), Stop> {
        let [head, middle, end] = self.program.constructs[self.label];
        let done = test.value(&self.store)? != 0;
        self.frames.pop();
        if done {
            return self.leave();
        }
        self.frames.push(Frame::Second(head));
        self.go(middle + 1, end - 1)
    }

    /// Into a procedure, down or up.
    fn call(&mut self, procedure: usize, down: bool) -> Result<(), Stop> {
        if self.calls == MOST_CALLS {
            return Err(Stop::TooManyCalls);
        }
        self.calls += 1;
        self.frames.push(Frame::Call(self.label));
        self.down = down;
        let (begin, end) = self.program.procedures[procedure];
        self.go(begin, end)?;
        self.leave()
    }

    /// END down, BEGIN up.
    fn finish(&mut self) -> Result<(), Stop> {
        let Some(Frame::Call(label)) = self.frames.pop() else {
            return Err(Stop::End);
        };
        self.calls -= 1;
        self.label = label;
        if let Record::Uncall(_) = self.program.records[label] {
            self.down = !self.down;
        }
        self.leave()
    }
}
