//! Stores, expressions and their values.

/// Why a run stops, by document 01's numbers.
#[derive(Clone, Copy)]
pub enum Stop {
    End = 30,
    WrongValue = 31,
    ZeroDivisor = 32,
    BadIndex = 33,
    TooManyCalls = 34,
}

#[rustfmt::skip]
#[derive(Clone, Copy)]
pub enum Operator { Add, Sub, Xor, Mul, Div, Rem, BitAnd, BitOr, And, Or, Less, More, Equal, Unequal, AtMost, AtLeast }

use Operator::*;

/// By their numbers in a file.
#[rustfmt::skip]
pub const OPERATORS: [Operator; 16] = [Add, Sub, Xor, Mul, Div, Rem, BitAnd, BitOr, And, Or, Less, More, Equal, Unequal, AtMost, AtLeast];

impl Operator {
    pub fn apply(self, left: i32, right: i32) -> Result<i32, Stop> {
        Ok(match self {
            Add => left.wrapping_add(right),
            Sub => left.wrapping_sub(right),
            Xor => left ^ right,
            Mul => left.wrapping_mul(right),
            Div | Rem if right == 0 => return Err(Stop::ZeroDivisor),
            Div => quotient(left, right) as i32,
            Rem => (i64::from(left) - quotient(left, right) * i64::from(right)) as i32,
            BitAnd => left & right,
            BitOr => left | right,
            And => i32::from(left != 0 && right != 0),
            Or => i32::from(left != 0 || right != 0),
            Less => i32::from(left < right),
            More => i32::from(left > right),
            Equal => i32::from(left == right),
            Unequal => i32::from(left != right),
            AtMost => i32::from(left <= right),
            AtLeast => i32::from(left >= right),
        })
    }

    /// What undoes a SET's operator.
    pub fn opposite(self) -> Operator {
        match self {
            Add => Sub,
            Sub => Add,
            other => other,
        }
    }
}

/// Exact, rounded towards minus infinity.
fn quotient(left: i32, right: i32) -> i64 {
    let (left, right) = (i64::from(left), i64::from(right));
    let rounded_up = left % right != 0 && (left < 0) != (right < 0);
    left / right - i64::from(rounded_up)
}

pub struct Store {
    pub scalars: Vec<i32>,
    pub arrays: Vec<Vec<i32>>,
}

impl Store {
    /// An array's cell; its index is tested.
    pub fn index(&self, array: usize, index: i32) -> Result<usize, Stop> {
        match usize::try_from(index) {
            Ok(index) if index < self.arrays[array].len() => Ok(index),
            _ => Err(Stop::BadIndex),
        }
    }
}

pub enum Expression {
    Constant(i32),
    Scalar(usize),
    Entry(usize, Box<Expression>),
    Binary(Operator, Box<Expression>, Box<Expression>),
}

impl Expression {
    pub fn value(&self, store: &Store) -> Result<i32, Stop> {
        match self {
            Expression::Constant(value) => Ok(*value),
            Expression::Scalar(number) => Ok(store.scalars[*number]),
            Expression::Entry(array, index) => {
                let index = store.index(*array, index.value(store)?)?;
                Ok(store.arrays[*array][index])
            }
            Expression::Binary(operator, left, right) => {
                operator.apply(left.value(store)?, right.value(store)?)
            }
        }
    }
}
