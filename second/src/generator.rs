//! Seeded programs that are sound, and places and stores to step them from.

use crate::builder::*;
use crate::expression::{Expression, Name};
use crate::order::MAX_OPEN;
use crate::place::{Direction, Frame, Place, MAX_CALLS};
use crate::program::{Inside, Program};
use crate::record::SetOperator;
use crate::rng::Rng;
use crate::values::Operator;

/// Values at which something turns.
pub const EDGES: [i32; 16] = [
    0,
    1,
    -1,
    2,
    -2,
    3,
    7,
    -7,
    16,
    1023,
    1024,
    65_536,
    i32::MAX,
    i32::MIN,
    i32::MAX - 1,
    i32::MIN + 1,
];

/// A sound program of any of the flavours.
pub fn program(rng: &mut Rng) -> Tree {
    match rng.below(8) {
        0 => guarded_recursion(rng),
        1 => endless_recursion(rng),
        2 => deep(rng),
        _ => Maker::new(rng).tree(),
    }
}

fn is_zero(number: u16) -> Expression {
    equal(scalar(number), constant(0))
}

fn call_or_uncall(rng: &mut Rng, procedure: u16) -> Node {
    match rng.percent(50) {
        true => Node::Call(procedure),
        false => Node::Uncall(procedure),
    }
}

/// Procedure 1 calls itself as often as scalar 0 says; beyond 64 calls it is refused.
fn guarded_recursion(rng: &mut Rng) -> Tree {
    let times = 60 + rng.below(8) as i32;
    let main = vec![plus(0, constant(times)), call_or_uncall(rng, 1)];
    let deeper = vec![
        minus(0, constant(1)),
        call_or_uncall(rng, 1),
        plus(0, constant(1)),
    ];
    let one = vec![Node::If(is_zero(0), vec![Node::Skip], deeper, is_zero(0))];
    tree(1, &[], vec![main, one])
}

/// Main and procedure 1 call 1 from under some constructs, up to 16.
fn endless_recursion(rng: &mut Rng) -> Tree {
    let open = *rng.pick(&[0, 2, MAX_OPEN]);
    let mut body = || {
        let inner = call_or_uncall(rng, 1);
        vec![wrapped(rng, open, inner)]
    };
    let procedures = vec![body(), body()];
    tree(0, &[], procedures)
}

/// A SET under 16 constructs.
fn deep(rng: &mut Rng) -> Tree {
    let value = rng.value();
    let inner = plus(0, constant(value));
    let body = vec![wrapped(rng, MAX_OPEN, inner), minus(0, constant(1))];
    tree(1, &[], vec![body])
}

/// The inner statement under constructs whose values always let it through.
fn wrapped(rng: &mut Rng, open: usize, inner: Node) -> Node {
    (0..open).fold(inner, |within, _| {
        let skip = vec![Node::Skip];
        match rng.below(3) {
            0 => Node::If(constant(5), vec![within], skip, constant(-1)),
            1 => Node::If(constant(0), skip, vec![within], constant(0)),
            _ => Node::From(constant(1), vec![within], skip, constant(2)),
        }
    })
}

/// Scalars 0 to 3 are assigned freely, 4 to 6 count loops by their nesting, 7 is never assigned.
const FREE: u16 = 4;
const COUNTERS: u16 = 3;
const STEADY: u16 = 7;
const SCALARS: u16 = 8;

/// Makes a random program of limited size.
struct Maker<'a> {
    rng: &'a mut Rng,
    lengths: Vec<u16>,
    procedures: u16,
    statements_left: usize,
}

impl<'a> Maker<'a> {
    fn new(rng: &'a mut Rng) -> Maker<'a> {
        let lengths = (0..rng.below(4)).map(|_| 1 + rng.small(5)).collect();
        let procedures = 1 + rng.small(4);
        Maker {
            rng,
            lengths,
            procedures,
            statements_left: 40,
        }
    }

    fn tree(mut self) -> Tree {
        let procedures = (0..self.procedures).map(|_| self.row(0)).collect();
        tree(SCALARS, &self.lengths, procedures)
    }

    fn row(&mut self, open: usize) -> Vec<Node> {
        let length = 1 + self.rng.below(3);
        (0..length).flat_map(|_| self.statement(open)).collect()
    }

    /// One statement, or a loop with the SET that puts its counter back.
    fn statement(&mut self, open: usize) -> Vec<Node> {
        self.statements_left = self.statements_left.saturating_sub(1);
        let plain = open == MAX_OPEN || self.statements_left == 0;
        match self.rng.below(if plain { 8 } else { 14 }) {
            0..=4 => vec![self.set()],
            5 => vec![Node::Skip],
            6 | 7 if self.procedures > 1 => {
                let callee = 1 + self.rng.small(self.procedures - 1);
                vec![call_or_uncall(self.rng, callee)]
            }
            6 | 7 => vec![self.set()],
            8..=10 => vec![self.choice(open)],
            _ => self.repetition(open),
        }
    }

    fn set(&mut self) -> Node {
        let operator = *self.rng.pick(&SetOperator::ALL);
        if self.lengths.is_empty() || self.rng.percent(50) {
            let target = self.rng.small(FREE);
            let expression = self.expression(3, Some(Name::Scalar(target)));
            return Node::Set(to_scalar(operator, target, expression));
        }
        let target = self.rng.small(self.lengths.len() as u16);
        let own = Some(Name::Array(target));
        let index = self.index(target, own);
        let expression = self.expression(3, own);
        Node::Set(to_array(operator, target, index, expression))
    }

    fn choice(&mut self, open: usize) -> Node {
        let (test, assertion) = match self.rng.below(10) {
            0..=5 => {
                let test = self.steady();
                (test.clone(), test)
            }
            _ => (self.expression(3, None), self.expression(3, None)),
        };
        Node::If(test, self.row(open + 1), self.row(open + 1), assertion)
    }

    fn repetition(&mut self, open: usize) -> Vec<Node> {
        match self.rng.below(10) {
            0..=5 if open < usize::from(COUNTERS) => self.counted(open),
            0..=7 => vec![self.once(open)],
            _ => {
                let (assertion, test) = (self.expression(3, None), self.expression(3, None));
                let (first, second) = (self.row(open + 1), self.row(open + 1));
                vec![Node::From(assertion, first, second, test)]
            }
        }
    }

    fn once(&mut self, open: usize) -> Node {
        let (first, second) = (self.row(open + 1), self.row(open + 1));
        Node::From(constant(1), first, second, constant(1))
    }

    /// FROM c = 0 s1, c += 1 LOOP s2 UNTIL c = times, then c -= times.
    fn counted(&mut self, open: usize) -> Vec<Node> {
        let counter = FREE + open as u16;
        let times = 1 + self.rng.below(4) as i32;
        let mut first = self.row(open + 1);
        first.push(plus(counter, constant(1)));
        let second = self.row(open + 1);
        let until = equal(scalar(counter), constant(times));
        vec![
            Node::From(is_zero(counter), first, second, until),
            minus(counter, constant(times)),
        ]
    }

    /// A value that no statement changes.
    fn steady(&mut self) -> Expression {
        let operator = *self
            .rng
            .pick(&[Operator::Less, Operator::Both, Operator::AtLeast]);
        let value = self.constant();
        binary(operator, scalar(STEADY), value)
    }

    fn constant(&mut self) -> Expression {
        match self.rng.below(4) {
            0 => constant(self.rng.value()),
            1 => constant(*self.rng.pick(&EDGES)),
            _ => constant(self.rng.below(5) as i32),
        }
    }

    /// An expression without the name given.
    fn expression(&mut self, depth: usize, own: Option<Name>) -> Expression {
        let kinds = if depth <= 1 { 4 } else { 9 };
        match self.rng.below(kinds) {
            0 | 1 => self.constant(),
            2 | 3 => {
                let number = self.rng.small(SCALARS);
                self.unless_own(Name::Scalar(number), scalar(number), own)
            }
            4 if !self.lengths.is_empty() => {
                let number = self.rng.small(self.lengths.len() as u16);
                let index = self.index(number, own);
                self.unless_own(Name::Array(number), array(number, index), own)
            }
            _ => {
                let operator = *self.rng.pick(&Operator::ALL);
                let left = self.expression(depth - 1, own);
                let right = self.expression(depth - 1, own);
                binary(operator, left, right)
            }
        }
    }

    fn unless_own(&mut self, name: Name, read: Expression, own: Option<Name>) -> Expression {
        match own == Some(name) {
            true => self.constant(),
            false => read,
        }
    }

    /// Mostly within the array.
    fn index(&mut self, array: u16, own: Option<Name>) -> Expression {
        let length = self.lengths[usize::from(array)];
        if self.rng.percent(85) {
            return constant(i32::from(self.rng.small(length)));
        }
        self.expression(2, own)
    }
}

/// A store of zeros, of small values, or of any.
pub fn store(rng: &mut Rng, cells: usize) -> Vec<i32> {
    let flavour = rng.below(3);
    (0..cells)
        .map(|_| match flavour {
            0 => 0,
            1 => rng.below(7) as i32 - 3,
            _ => rng.value(),
        })
        .collect()
}

/// A start, or any fitting place, reachable or not.
pub fn place(rng: &mut Rng, program: &Program) -> Place {
    let direction = *rng.pick(&[Direction::Down, Direction::Up]);
    if rng.percent(50) {
        return Place::start(program, direction);
    }
    let edge = rng.pick(&program.edges);
    let (a, b) = match direction {
        Direction::Down => (edge.from, edge.to),
        Direction::Up => (edge.to, edge.from),
    };
    match frames(rng, program, &edge.inside) {
        Some(frames) => Place {
            direction,
            a,
            b,
            frames,
        },
        None => Place::start(program, direction),
    }
}

/// Frames from the innermost outward; None where no chain of calls leads back to main.
fn frames(rng: &mut Rng, program: &Program, innermost: &Inside) -> Option<Vec<Frame>> {
    let mut found = innermost.constructs.clone();
    let mut inside = innermost;
    for _ in 0..=MAX_CALLS {
        if inside.procedure == 0 {
            return Some(found);
        }
        let naming = |label: &u16| program.callee(*label) == Some(inside.procedure);
        let callers: Vec<u16> = program
            .calling_labels()
            .into_iter()
            .filter(naming)
            .collect();
        let label = *callers.get(rng.below(callers.len().max(1)))?;
        found.push(Frame::new(Frame::CALL, label));
        inside = program.caller(label)?;
        found.extend(&inside.constructs);
    }
    None
}
