//! Expression trees: parsed from their prefix code, walked to evaluate and to look for names.

use crate::bytes::{put_i32, put_u16, Reader};
use crate::names::Names;
use crate::number::Number;
use crate::values::{apply, Operator};

pub const MAX_DEPTH: usize = 16;

#[derive(Clone, Debug, PartialEq, Eq)]
pub enum Expression {
    Constant(i32),
    Scalar(u16),
    Array(u16, Box<Expression>),
    Binary(Operator, Box<Expression>, Box<Expression>),
}

/// A scalar and an array of the same number are two names.
#[derive(Clone, Copy, Debug, PartialEq, Eq)]
pub enum Name {
    Scalar(u16),
    Array(u16),
}

impl Name {
    pub fn is_in(self, names: &Names) -> bool {
        match self {
            Name::Scalar(scalar) => names.has_scalar(scalar),
            Name::Array(array) => names.has_array(array),
        }
    }
}

impl Expression {
    /// None where the bytes are no expression of depth at most 16.
    pub fn parse(reader: &mut Reader) -> Option<Expression> {
        Expression::parse_within(reader, MAX_DEPTH)
    }

    // The depth is counted down, so that a long body cannot exhaust the stack.
    fn parse_within(reader: &mut Reader, depth: usize) -> Option<Expression> {
        let below = depth.checked_sub(1)?;
        match reader.u8()? {
            0 => Some(Expression::Constant(reader.i32()?)),
            1 => Some(Expression::Scalar(reader.u16()?)),
            2 => {
                let array = reader.u16()?;
                let index = Expression::parse_within(reader, below)?;
                Some(Expression::Array(array, Box::new(index)))
            }
            3 => {
                let operator = Operator::from_code(reader.u8()?)?;
                let left = Expression::parse_within(reader, below)?;
                let right = Expression::parse_within(reader, below)?;
                Some(Expression::Binary(
                    operator,
                    Box::new(left),
                    Box::new(right),
                ))
            }
            _ => None,
        }
    }

    pub fn encode(&self, out: &mut Vec<u8>) {
        match self {
            Expression::Constant(value) => {
                out.push(0);
                put_i32(out, *value);
            }
            Expression::Scalar(scalar) => {
                out.push(1);
                put_u16(out, *scalar);
            }
            Expression::Array(array, index) => {
                out.push(2);
                put_u16(out, *array);
                index.encode(out);
            }
            Expression::Binary(operator, left, right) => {
                out.extend_from_slice(&[3, operator.code()]);
                left.encode(out);
                right.encode(out);
            }
        }
    }

    pub fn depth(&self) -> usize {
        match self {
            Expression::Constant(_) | Expression::Scalar(_) => 1,
            Expression::Array(_, index) => 1 + index.depth(),
            Expression::Binary(_, left, right) => 1 + left.depth().max(right.depth()),
        }
    }

    /// Every name that occurs, in the order of reading.
    pub fn names(&self) -> Vec<Name> {
        match self {
            Expression::Constant(_) => vec![],
            Expression::Scalar(scalar) => vec![Name::Scalar(*scalar)],
            Expression::Array(array, index) => {
                let mut found = vec![Name::Array(*array)];
                found.extend(index.names());
                found
            }
            Expression::Binary(_, left, right) => {
                let mut found = left.names();
                found.extend(right.names());
                found
            }
        }
    }

    /// Every operator that occurs: all of them are applied where the value arrives.
    pub fn operators(&self) -> Vec<Operator> {
        match self {
            Expression::Constant(_) | Expression::Scalar(_) => vec![],
            Expression::Array(_, index) => index.operators(),
            Expression::Binary(operator, left, right) => {
                let mut found = vec![*operator];
                found.extend(left.operators());
                found.extend(right.operators());
                found
            }
        }
    }

    /// Both sides always, left first; an array read evaluates its index, tests it, then reads.
    pub fn evaluate(&self, names: &Names, store: &[i32]) -> Result<i32, Number> {
        match self {
            Expression::Constant(value) => Ok(*value),
            Expression::Scalar(scalar) => Ok(store[names.scalar_cell(*scalar)]),
            Expression::Array(array, index) => {
                let index = index.evaluate(names, store)?;
                Ok(store[names.array_cell(*array, index)?])
            }
            Expression::Binary(operator, left, right) => {
                let left = left.evaluate(names, store)?;
                let right = right.evaluate(names, store)?;
                apply(*operator, left, right)
            }
        }
    }
}
