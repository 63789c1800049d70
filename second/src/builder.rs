//! Builds program files from small trees, and from loose records where the order is to be wrong.

use crate::expression::Expression;
use crate::names::Names;
use crate::record::{Assignment, Record, SetOperator, Target};
use crate::values::Operator;

/// A program without labels.
#[derive(Clone, Debug, PartialEq, Eq)]
pub struct Tree {
    pub scalars: u16,
    pub lengths: Vec<u16>,
    /// The first is main.
    pub procedures: Vec<Vec<Node>>,
}

/// A statement without labels.
#[derive(Clone, Debug, PartialEq, Eq)]
pub enum Node {
    Set(Assignment),
    Call(u16),
    Uncall(u16),
    Skip,
    If(Expression, Vec<Node>, Vec<Node>, Expression),
    From(Expression, Vec<Node>, Vec<Node>, Expression),
}

impl Tree {
    pub fn records(&self) -> Vec<Record> {
        let mut out = vec![names(self.scalars, &self.lengths)];
        for body in &self.procedures {
            out.push(Record::Begin);
            lay_out(body, &mut out);
            out.push(Record::End);
        }
        out
    }

    pub fn encode(&self) -> Vec<u8> {
        encode(&self.records())
    }
}

fn lay_out(row: &[Node], out: &mut Vec<Record>) {
    for node in row {
        match node {
            Node::Set(assignment) => out.push(Record::Set(assignment.clone())),
            Node::Call(procedure) => out.push(Record::Call(*procedure)),
            Node::Uncall(procedure) => out.push(Record::Uncall(*procedure)),
            Node::Skip => out.push(Record::Skip),
            Node::If(test, first, second, assertion) => {
                out.push(Record::If(test.clone()));
                lay_out(first, out);
                out.push(Record::Else);
                lay_out(second, out);
                out.push(Record::Fi(assertion.clone()));
            }
            Node::From(assertion, first, second, test) => {
                out.push(Record::From(assertion.clone()));
                lay_out(first, out);
                out.push(Record::Loop);
                lay_out(second, out);
                out.push(Record::Until(test.clone()));
            }
        }
    }
}

/// A file of records in the order given, sound or not.
pub fn encode(records: &[Record]) -> Vec<u8> {
    let mut out = vec![];
    for record in records {
        record.encode(&mut out);
    }
    out
}

pub fn tree(scalars: u16, lengths: &[u16], procedures: Vec<Vec<Node>>) -> Tree {
    Tree {
        scalars,
        lengths: lengths.to_vec(),
        procedures,
    }
}

pub fn names(scalars: u16, lengths: &[u16]) -> Record {
    Record::Names(Names {
        scalars,
        lengths: lengths.to_vec(),
    })
}

pub fn constant(value: i32) -> Expression {
    Expression::Constant(value)
}

pub fn scalar(number: u16) -> Expression {
    Expression::Scalar(number)
}

pub fn array(number: u16, index: Expression) -> Expression {
    Expression::Array(number, Box::new(index))
}

pub fn binary(operator: Operator, left: Expression, right: Expression) -> Expression {
    Expression::Binary(operator, Box::new(left), Box::new(right))
}

pub fn equal(left: Expression, right: Expression) -> Expression {
    binary(Operator::Equal, left, right)
}

/// An assignment to a scalar.
pub fn to_scalar(operator: SetOperator, number: u16, expression: Expression) -> Assignment {
    Assignment {
        operator,
        target: Target::Scalar(number),
        expression,
    }
}

/// An assignment to an array's cell.
pub fn to_array(
    operator: SetOperator,
    number: u16,
    index: Expression,
    expression: Expression,
) -> Assignment {
    Assignment {
        operator,
        target: Target::Array(number, index),
        expression,
    }
}

/// Scalar `+=` expression.
pub fn plus(number: u16, expression: Expression) -> Node {
    Node::Set(to_scalar(SetOperator::Plus, number, expression))
}

/// Scalar `-=` expression.
pub fn minus(number: u16, expression: Expression) -> Node {
    Node::Set(to_scalar(SetOperator::Minus, number, expression))
}

/// Array[index] `+=` expression.
pub fn plus_at(number: u16, index: Expression, expression: Expression) -> Node {
    Node::Set(to_array(SetOperator::Plus, number, index, expression))
}

/// Document 01's 76-byte file.
pub fn example() -> Tree {
    let counted = vec![plus(0, constant(1))];
    let body = vec![
        plus(1, constant(3)),
        Node::From(
            equal(scalar(0), constant(0)),
            counted,
            vec![Node::Skip],
            equal(scalar(0), scalar(1)),
        ),
    ];
    tree(2, &[], vec![body])
}
