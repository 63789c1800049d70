//! One file checked again and again, and files to do that with: the other side of the benchmark speed/check.

use crate::builder::*;
use crate::check::{check, MAX_FILE};
use crate::expression::Expression;
use crate::values::Operator;

/// The low byte of the number of scalars: where it is even, an accepted file stays accepted with one more.
const CHANGED: usize = 4;

/// The line that the program check_speed writes. Every other turn has another byte; the last has the file's own.
pub fn recheck(file: &mut [u8], calls: u32) -> String {
    let own = file.get(CHANGED).copied();
    let mut accepted = 0;
    let mut last = (0, 0);
    for left in (0..calls).rev() {
        // A file too short to have the byte stays as it is.
        if let (Some(byte), Some(own)) = (file.get_mut(CHANGED), own) {
            *byte = own ^ (left % 2) as u8;
        }
        last = match check(file) {
            Ok(_) => (0, 0),
            Err(refusal) => (refusal.number.value(), refusal.record.unwrap_or(0)),
        };
        accepted += u32::from(last == (0, 0));
    }
    let (number, record) = last;
    format!("calls {calls} accepted {accepted} last {number} {record}\n")
}

/// An accepted file of at most so many bytes and of nearly as many: procedures of every kind of statement.
pub fn sized(bytes: usize) -> Option<Vec<u8>> {
    let room = bytes.min(MAX_FILE);
    let files = (0..).map(|statements| mixed(statements).encode());
    files.take_while(|file| file.len() <= room).last()
}

/// A procedure has at most so many of the mixed statements, so that a long file has some thirty procedures.
const IN_ONE: usize = 4;

/// Two scalars, an even number, so that the changed byte is one scalar more.
fn mixed(statements: usize) -> Tree {
    let numbers: Vec<usize> = (0..statements).collect();
    let mut procedures: Vec<Vec<Node>> = numbers
        .chunks(IN_ONE)
        .map(|few| few.iter().map(|n| statement(*n)).collect())
        .collect();
    procedures.push(vec![Node::Skip]);
    tree(2, &[8], procedures)
}

/// Every kind of statement over longish expressions: about 290 bytes in seven records.
fn statement(number: usize) -> Node {
    let test = equal(scalar(1), constant(number as i32));
    let set = plus(0, longish(4));
    let set_at = plus_at(0, scalar(1), longish(2));
    match number % 2 {
        0 => Node::If(test.clone(), vec![set, Node::Call(1)], vec![set_at], test),
        _ => Node::From(test.clone(), vec![set, set_at], vec![Node::Uncall(1)], test),
    }
}

/// Sums of scalar 1 and constants, so many deep.
fn longish(depth: usize) -> Expression {
    if depth == 0 {
        return scalar(1);
    }
    binary(
        Operator::Add,
        longish(depth - 1),
        binary(Operator::Multiply, constant(3), longish(depth - 1)),
    )
}
