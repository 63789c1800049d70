//! Runs against a big-step reading of the same trees (document 000, figure 3): no labels, edges or frames.
#![forbid(unsafe_code)]

use second::builder::{Node, Tree};
use second::check::check;
use second::expression::Expression;
use second::generator;
use second::machine::run;
use second::names::Names;
use second::number::Number;
use second::place::{Direction, Place};
use second::record::{Assignment, SetOperator, Target};
use second::rng::Rng;
use std::collections::BTreeMap;

/// Why the walk over the trees ended: None where its steps were used up.
type Stop = Option<Number>;

struct BigStep<'a> {
    procedures: &'a [Vec<Node>],
    names: Names,
    store: Vec<i32>,
    steps: u32,
    most: u32,
    calls: usize,
}

impl BigStep<'_> {
    fn fuel(&self) -> Result<(), Stop> {
        match self.steps < self.most {
            true => Ok(()),
            false => Err(None),
        }
    }

    fn value(&self, expression: &Expression) -> Result<i32, Stop> {
        self.fuel()?;
        expression.evaluate(&self.names, &self.store).map_err(Some)
    }

    fn row(&mut self, row: &[Node], inverse: bool) -> Result<(), Stop> {
        for at in 0..row.len() {
            let node = if inverse {
                &row[row.len() - 1 - at]
            } else {
                &row[at]
            };
            self.node(node, inverse)?;
        }
        Ok(())
    }

    fn node(&mut self, node: &Node, inverse: bool) -> Result<(), Stop> {
        match node {
            Node::Skip => self.fuel()?,
            Node::Set(assignment) => self.assign(assignment, inverse)?,
            Node::Call(procedure) => return self.call(*procedure, inverse),
            Node::Uncall(procedure) => return self.call(*procedure, !inverse),
            Node::If(test, first, second, assertion) if !inverse => {
                return self.choice(test, first, second, assertion, inverse)
            }
            Node::If(test, first, second, assertion) => {
                return self.choice(assertion, first, second, test, inverse)
            }
            Node::From(assertion, first, second, test) if !inverse => {
                return self.repeat(assertion, first, second, test, inverse)
            }
            Node::From(assertion, first, second, test) => {
                return self.repeat(test, first, second, assertion, inverse)
            }
        }
        self.steps += 1;
        Ok(())
    }

    fn assign(&mut self, assignment: &Assignment, inverse: bool) -> Result<(), Stop> {
        let cell = match &assignment.target {
            Target::Scalar(scalar) => usize::from(*scalar),
            Target::Array(array, index) => {
                let index = self.value(index)?;
                self.names.array_cell(*array, index).map_err(Some)?
            }
        };
        let (old, by) = (self.store[cell], self.value(&assignment.expression)?);
        self.store[cell] = match (assignment.operator, inverse) {
            (SetOperator::Plus, false) | (SetOperator::Minus, true) => old.wrapping_add(by),
            (SetOperator::Minus, false) | (SetOperator::Plus, true) => old.wrapping_sub(by),
            (SetOperator::Xor, _) => old ^ by,
        };
        Ok(())
    }

    fn choice(
        &mut self,
        test: &Expression,
        first: &[Node],
        second: &[Node],
        assertion: &Expression,
        inverse: bool,
    ) -> Result<(), Stop> {
        let chosen = self.value(test)? != 0;
        self.steps += 1;
        self.row(if chosen { first } else { second }, inverse)?;
        if (self.value(assertion)? != 0) != chosen {
            return Err(Some(Number::WrongValue));
        }
        self.steps += 1;
        Ok(())
    }

    fn repeat(
        &mut self,
        entry: &Expression,
        first: &[Node],
        second: &[Node],
        exit: &Expression,
        inverse: bool,
    ) -> Result<(), Stop> {
        let mut outside = true;
        loop {
            if (self.value(entry)? != 0) != outside {
                return Err(Some(Number::WrongValue));
            }
            self.steps += 1;
            self.row(first, inverse)?;
            let leaves = self.value(exit)? != 0;
            self.steps += 1;
            if leaves {
                return Ok(());
            }
            self.row(second, inverse)?;
            outside = false;
        }
    }

    fn call(&mut self, procedure: u16, inverse: bool) -> Result<(), Stop> {
        self.fuel()?;
        if self.calls == 64 {
            return Err(Some(Number::Calls));
        }
        self.calls += 1;
        self.steps += 1;
        self.row(&self.procedures[usize::from(procedure)], inverse)?;
        self.fuel()?;
        self.calls -= 1;
        self.steps += 1;
        Ok(())
    }

    fn whole(&mut self, inverse: bool) -> Stop {
        let ended = self.row(&self.procedures[0], inverse);
        match ended.and_then(|()| self.fuel()) {
            Ok(()) => Some(Number::End),
            Err(stop) => stop,
        }
    }
}

/// Steps, reason and store by the trees and by the machine are the same.
fn compare(tree: &Tree, direction: Direction, store: Vec<i32>, most: u32) -> Stop {
    let program = check(&tree.encode()).expect("a sound program");
    let mut machine_store = store.clone();
    let start = Place::start(&program, direction);
    let ran = run(&program, &start, &mut machine_store, most);
    let mut big = BigStep {
        procedures: &tree.procedures,
        names: program.names.clone(),
        store,
        steps: 0,
        most,
        calls: 0,
    };
    let stop = big.whole(direction == Direction::Up);
    assert_eq!((stop, big.steps), (ran.reason, ran.steps), "{tree:?}");
    assert_eq!(big.store, machine_store, "{tree:?}");
    stop
}

#[test]
fn runs_are_what_the_trees_mean() {
    let mut rng = Rng::new(77);
    let mut stops: BTreeMap<u8, u32> = BTreeMap::new();
    for _ in 0..3_000 {
        let tree = generator::program(&mut rng);
        let cells = check(&tree.encode()).expect("a sound program").cells();
        for direction in [Direction::Down, Direction::Up] {
            let store = generator::store(&mut rng, cells);
            let most = *rng.pick(&[5_000, 5_000, 17]);
            let stop = compare(&tree, direction, store, most);
            *stops.entry(stop.map_or(0, Number::value)).or_insert(0) += 1;
        }
    }
    // Every reason was met, and runs that use up all their steps.
    let met: Vec<u8> = stops.keys().copied().collect();
    assert_eq!(met, [0, 30, 31, 32, 33, 34], "{stops:?}");
}
