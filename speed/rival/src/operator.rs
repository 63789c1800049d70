//! The operators, over i32.

use crate::told::{both, Both, REFUSED};

/// Which comparisons hold: the bits 0 to 5 are `< > = != <= >=`.
#[inline(always)]
pub fn comparisons(left: i32, right: i32) -> u32 {
    let equal_or_more = if left == right { 52 } else { 42 };
    if left < right {
        25
    } else {
        equal_or_more
    }
}

/// An operator that an index is made of.
#[inline(always)]
pub fn simple(operator: u8, left: i32, right: i32) -> Option<i32> {
    Some(match operator {
        0 => left.wrapping_add(right),
        1 => left.wrapping_sub(right),
        2 => left ^ right,
        3 => left.wrapping_mul(right),
        6 => left & right,
        7 => left | right,
        _ => return None,
    })
}

#[inline(always)]
pub fn apply(operator: u8, left: i32, right: i32, next: usize) -> Both {
    match plain(operator, left, right) {
        Some(value) => both(value, next),
        None => divided(operator, left, right, next),
    }
}

/// Any operator but a division.
#[inline(always)]
fn plain(operator: u8, left: i32, right: i32) -> Option<i32> {
    Some(match operator {
        0 => left.wrapping_add(right),
        1 => left.wrapping_sub(right),
        2 => left ^ right,
        3 => left.wrapping_mul(right),
        4 | 5 => return None,
        6 => left & right,
        7 => left | right,
        8 => i32::from(left != 0 && right != 0),
        9 => i32::from(left != 0 || right != 0),
        10 => i32::from(left < right),
        11 => i32::from(left > right),
        12 => i32::from(left == right),
        13 => i32::from(left != right),
        14 => i32::from(left <= right),
        _ => i32::from(left >= right),
    })
}

#[cold]
#[inline(never)]
fn divided(operator: u8, left: i32, right: i32, next: usize) -> Both {
    if right == 0 {
        return both(32, REFUSED);
    }
    let towards_zero = left.wrapping_div(right);
    let rest = left.wrapping_rem(right);
    let below = rest != 0 && (rest < 0) != (right < 0);
    match (operator, below) {
        (4, _) => both(towards_zero - i32::from(below), next),
        (_, false) => both(rest, next),
        (_, true) => both(rest + right, next),
    }
}
