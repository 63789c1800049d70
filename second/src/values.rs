//! Document 01, 'Values': every operator is taken over exact integers, then wrapped.

use crate::number::Number;

#[derive(Clone, Copy, Debug, PartialEq, Eq)]
pub enum Operator {
    Add,
    Subtract,
    Xor,
    Multiply,
    Divide,
    Remainder,
    And,
    Or,
    Both,
    Either,
    Less,
    Greater,
    Equal,
    Unequal,
    AtMost,
    AtLeast,
}

impl Operator {
    /// In the order of their codes, 0 to 15.
    pub const ALL: [Operator; 16] = [
        Operator::Add,
        Operator::Subtract,
        Operator::Xor,
        Operator::Multiply,
        Operator::Divide,
        Operator::Remainder,
        Operator::And,
        Operator::Or,
        Operator::Both,
        Operator::Either,
        Operator::Less,
        Operator::Greater,
        Operator::Equal,
        Operator::Unequal,
        Operator::AtMost,
        Operator::AtLeast,
    ];

    pub fn from_code(code: u8) -> Option<Operator> {
        Operator::ALL.get(usize::from(code)).copied()
    }

    pub fn code(self) -> u8 {
        self as u8
    }
}

/// Modulo 2^32 into -2147483648..2147483647.
pub fn wrap(exact: i64) -> i32 {
    let modulus = 1_i64 << 32;
    let low = exact.rem_euclid(modulus);
    let signed = if low >= modulus / 2 {
        low - modulus
    } else {
        low
    };
    i32::try_from(signed).expect("wrap stays within i32")
}

/// Rounded towards minus infinity; the divisor is not zero.
fn exact_quotient(left: i64, right: i64) -> i64 {
    let towards_zero = left / right;
    let inexact = towards_zero * right != left;
    let below_zero = (left < 0) != (right < 0);
    if inexact && below_zero {
        towards_zero - 1
    } else {
        towards_zero
    }
}

fn truth(holds: bool) -> i32 {
    i32::from(holds)
}

pub fn is_true(value: i32) -> bool {
    value != 0
}

/// The value, or 32 for a zero divisor.
pub fn apply(operator: Operator, left: i32, right: i32) -> Result<i32, Number> {
    let (l, r) = (i64::from(left), i64::from(right));
    Ok(match operator {
        Operator::Add => wrap(l + r),
        Operator::Subtract => wrap(l - r),
        Operator::Xor => left ^ right,
        Operator::Multiply => wrap(l * r),
        Operator::Divide => wrap(divide(l, r)?),
        Operator::Remainder => wrap(l - divide(l, r)? * r),
        Operator::And => left & right,
        Operator::Or => left | right,
        Operator::Both => truth(is_true(left) && is_true(right)),
        Operator::Either => truth(is_true(left) || is_true(right)),
        Operator::Less => truth(left < right),
        Operator::Greater => truth(left > right),
        Operator::Equal => truth(left == right),
        Operator::Unequal => truth(left != right),
        Operator::AtMost => truth(left <= right),
        Operator::AtLeast => truth(left >= right),
    })
}

fn divide(left: i64, right: i64) -> Result<i64, Number> {
    if right == 0 {
        return Err(Number::ZeroDivisor);
    }
    Ok(exact_quotient(left, right))
}
