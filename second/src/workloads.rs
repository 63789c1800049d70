//! Programs to time a machine with: each makes more than ten million steps down from zeros.

use crate::builder::*;
use crate::expression::Expression;
use crate::record::SetOperator;
use crate::values::Operator;

pub struct Workload {
    pub name: &'static str,
    pub tree: Tree,
}

impl Workload {
    pub fn file_name(&self) -> String {
        format!("{}.janus", self.name)
    }
}

pub fn all() -> Vec<Workload> {
    let of = |name, tree| Workload { name, tree };
    vec![
        of("counting", counting()),
        of("calls", calls()),
        of("arrays", arrays()),
        of("uncalls", uncalls()),
        of("padded", padded()),
    ]
}

const I: u16 = 0;

/// `from i = 0 do body, i += 1 loop skip until i = rounds`: four steps a round beside the body's.
fn repeated(rounds: i32, mut body: Vec<Node>) -> Node {
    body.push(plus(I, constant(1)));
    let (first, last) = (
        equal(scalar(I), constant(0)),
        equal(scalar(I), constant(rounds)),
    );
    Node::From(first, body, vec![Node::Skip], last)
}

const COUNTED: i32 = 3_000_000;

/// A counting loop, 8 records in all.
fn counting() -> Tree {
    tree(1, &[], vec![vec![repeated(COUNTED, vec![])]])
}

/// The counting loop among 1,000 records: SKIPs before it, and a procedure that nobody calls.
fn padded() -> Tree {
    const PADDING: usize = 495;
    let mut main = vec![Node::Skip; PADDING];
    main.push(repeated(COUNTED, vec![]));
    tree(1, &[], vec![main, vec![Node::Skip; PADDING]])
}

const DEPTH: u16 = 20;

/// Twenty calls within each other, and a SET in the innermost.
fn calls() -> Tree {
    let mut procedures = vec![vec![repeated(250_000, vec![Node::Call(1)])]];
    for number in 1..DEPTH {
        procedures.push(vec![Node::Call(number + 1)]);
    }
    procedures.push(vec![plus(1, scalar(I))]);
    tree(2, &[], procedures)
}

fn masked(expression: Expression, mask: i32) -> Expression {
    binary(Operator::And, expression, constant(mask))
}

/// Two conditionals a round, one by the counter's last bit, one by a cell of an array.
fn arrays() -> Tree {
    const A: u16 = 0;
    const B: u16 = 1;
    const C: u16 = 2;
    let i = || scalar(I);
    let even = || equal(masked(i(), 1), constant(0));
    let shifted = masked(binary(Operator::Add, i(), constant(7)), 63);
    let mixed = masked(binary(Operator::Multiply, i(), constant(5)), 63);
    let sum = binary(Operator::Add, array(B, shifted), i());
    let first = plus_at(A, masked(i(), 63), sum);
    let second = to_array(SetOperator::Xor, B, masked(i(), 63), array(A, mixed));
    let by_counter = Node::If(even(), vec![first], vec![Node::Set(second)], even());
    let above = || {
        let cell = array(A, masked(i(), 63));
        binary(Operator::Greater, cell, constant(0))
    };
    let up = plus_at(C, masked(i(), 31), constant(1));
    let down = to_array(SetOperator::Minus, C, masked(i(), 31), constant(1));
    let by_cell = Node::If(above(), vec![up], vec![Node::Set(down)], above());
    let main = vec![repeated(1_100_000, vec![by_counter, by_cell])];
    tree(1, &[64, 64, 32], vec![main])
}

/// Procedures that uncall each other, so that the direction turns sixteen times a round.
fn uncalls() -> Tree {
    const X: u16 = 1;
    const Y: u16 = 2;
    let xor = |number, from| Node::Set(to_scalar(SetOperator::Xor, number, scalar(from)));
    let main = vec![repeated(450_000, vec![Node::Uncall(1)])];
    let one = vec![Node::Uncall(2), plus(Y, scalar(X)), Node::Uncall(3)];
    let two = vec![Node::Uncall(3), minus(X, constant(3)), Node::Uncall(3)];
    let three = vec![Node::Uncall(4), xor(Y, I)];
    let four = vec![plus(X, scalar(I))];
    tree(3, &[], vec![main, one, two, three, four])
}
