//! One step forward, one step back, and runs. Places given here fit, stores have the right length.

use crate::expression::Expression;
use crate::number::Number;
use crate::place::{down_to_call, Direction, Frame, Place, MAX_CALLS};
use crate::program::Program;
use crate::record::{Assignment, Record, SetOperator, Target};
use crate::values::{apply, is_true};

/// The next place, or why there is none; a refused step leaves the store untouched.
pub fn step(program: &Program, place: &Place, store: &mut [i32]) -> Result<Place, Number> {
    let going = Going {
        program,
        label: place.b,
        direction: place.direction,
        frames: place.frames.clone(),
    };
    let down = place.direction == Direction::Down;
    match program.record(place.b) {
        Record::Set(assignment) => going.set(assignment, store),
        Record::Skip => Ok(going.onward()),
        Record::If(e) if down => going.choose(e, store),
        Record::If(e) => going.close(e, store),
        Record::Fi(e) if down => going.close(e, store),
        Record::Fi(e) => going.choose(e, store),
        Record::From(e) if down => going.open(e, store),
        Record::From(e) => going.test(e, store),
        Record::Until(e) if down => going.test(e, store),
        Record::Until(e) => going.open(e, store),
        Record::Call(procedure) => going.enter(*procedure, place.direction),
        Record::Uncall(procedure) => going.enter(*procedure, place.direction.opposite()),
        Record::End | Record::Begin => going.leave_procedure(),
        Record::Names(_) | Record::Else | Record::Loop => {
            unreachable!("NAMES, ELSE and LOOP lie on no edge")
        }
    }
}

/// A step forward from the place turned round, its result turned round again.
pub fn back(program: &Program, place: &Place, store: &mut [i32]) -> Result<Place, Number> {
    step(program, &place.clone().turned(), store).map(Place::turned)
}

/// The steps made, the last place, and the reason where fewer than n were made.
pub struct Run {
    pub steps: u32,
    pub place: Place,
    pub reason: Option<Number>,
}

pub fn run(program: &Program, place: &Place, store: &mut [i32], n: u32) -> Run {
    let mut place = place.clone();
    for steps in 0..n {
        match step(program, &place, store) {
            Ok(next) => place = next,
            Err(number) => {
                return Run {
                    steps,
                    place,
                    reason: Some(number),
                }
            }
        }
    }
    Run {
        steps: n,
        place,
        reason: None,
    }
}

/// A run from the turned place, turned round again.
pub fn run_back(program: &Program, place: &Place, store: &mut [i32], n: u32) -> Run {
    let ran = run(program, &place.clone().turned(), store, n);
    Run {
        place: ran.place.turned(),
        ..ran
    }
}

/// The record being executed: its label, the direction, and the frames so far.
struct Going<'a> {
    program: &'a Program,
    label: u16,
    direction: Direction,
    frames: Vec<Frame>,
}

impl Going<'_> {
    fn set(self, assignment: &Assignment, store: &mut [i32]) -> Result<Place, Number> {
        let cell = self.target_cell(&assignment.target, store)?;
        let value = self.evaluate(&assignment.expression, store)?;
        let operator = directed(assignment.operator, self.direction);
        store[cell] = apply(operator.operator(), store[cell], value)?;
        Ok(self.onward())
    }

    /// An array's index is evaluated and tested before the SET's expression.
    fn target_cell(&self, target: &Target, store: &[i32]) -> Result<usize, Number> {
        let names = &self.program.names;
        match target {
            Target::Scalar(scalar) => Ok(names.scalar_cell(*scalar)),
            Target::Array(array, index) => {
                let index = self.evaluate(index, store)?;
                names.array_cell(*array, index)
            }
        }
    }

    fn evaluate(&self, expression: &Expression, store: &[i32]) -> Result<i32, Number> {
        expression.evaluate(&self.program.names, store)
    }

    fn is_true(&self, expression: &Expression, store: &[i32]) -> Result<bool, Number> {
        Ok(is_true(self.evaluate(expression, store)?))
    }

    /// IF down and FI up.
    fn choose(mut self, expression: &Expression, store: &[i32]) -> Result<Place, Number> {
        let kind = branch(self.is_true(expression, store)?);
        self.push(kind);
        Ok(self.onward())
    }

    /// FI down and IF up.
    fn close(mut self, expression: &Expression, store: &[i32]) -> Result<Place, Number> {
        let kind = branch(self.is_true(expression, store)?);
        if !self.stands_in(kind) {
            return Err(Number::WrongValue);
        }
        self.pop();
        Ok(self.onward())
    }

    /// FROM down and UNTIL up: the edge come by decides what the value must be.
    fn open(mut self, expression: &Expression, store: &[i32]) -> Result<Place, Number> {
        let from_second = self.stands_in(Frame::SECOND);
        let value = self.is_true(expression, store)?;
        if value == from_second {
            return Err(Number::WrongValue);
        }
        if from_second {
            self.pop();
        }
        self.push(Frame::FIRST);
        Ok(self.onward())
    }

    /// UNTIL down and FROM up: come to from s1, so frame 2 is on top.
    fn test(mut self, expression: &Expression, store: &[i32]) -> Result<Place, Number> {
        let leaves = self.is_true(expression, store)?;
        self.pop();
        if !leaves {
            self.push(Frame::SECOND);
        }
        Ok(self.onward())
    }

    /// CALL and UNCALL, with the direction that the procedure is entered in.
    fn enter(mut self, procedure: u16, direction: Direction) -> Result<Place, Number> {
        let calls = self.frames.iter().filter(|frame| frame.is_call()).count();
        if calls == MAX_CALLS {
            return Err(Number::Calls);
        }
        self.frames.insert(0, Frame::new(Frame::CALL, self.label));
        let entered = self.program.procedure(procedure);
        self.label = match direction {
            Direction::Down => entered.begin,
            Direction::Up => entered.end,
        };
        self.direction = direction;
        Ok(self.onward())
    }

    /// END down and BEGIN up: back to the calling record, or the end where no call is left.
    fn leave_procedure(mut self) -> Result<Place, Number> {
        if self.frames.is_empty() {
            return Err(Number::End);
        }
        let call = self.frames.remove(0);
        self.label = call.label;
        if let Record::Uncall(_) = self.program.record(call.label) {
            self.direction = self.direction.opposite();
        }
        Ok(self.onward())
    }

    fn push(&mut self, kind: u16) {
        let opener = self.program.opener(self.label);
        self.frames.insert(0, Frame::new(kind, opener));
    }

    fn pop(&mut self) {
        self.frames.remove(0);
    }

    /// Whether the innermost frame is this construct's own, of that kind.
    fn stands_in(&self, kind: u16) -> bool {
        let opener = self.program.opener(self.label);
        self.frames.first() == Some(&Frame::new(kind, opener))
    }

    /// a is the label just executed; b follows it on the one edge that the frames enclose.
    fn onward(self) -> Place {
        let (constructs, _) = down_to_call(&self.frames);
        let b = self
            .program
            .leaving(self.label, self.direction)
            .into_iter()
            .find(|(_, inside)| inside.constructs == constructs)
            .map(|(to, _)| to)
            .expect("an executed record has an edge onward");
        Place {
            direction: self.direction,
            a: self.label,
            b,
            frames: self.frames,
        }
    }
}

fn branch(value: bool) -> u16 {
    if value {
        Frame::TRUE
    } else {
        Frame::FALSE
    }
}

fn directed(operator: SetOperator, direction: Direction) -> SetOperator {
    match direction {
        Direction::Down => operator,
        Direction::Up => operator.opposite(),
    }
}
