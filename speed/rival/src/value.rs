//! Expressions, evaluated on the file's bytes: first the quick ways, which need no frame, then any other.

use crate::map::Run;
use crate::operator::{apply, comparisons, simple};
use crate::told::{answer, apart, both, Answer, Both, Told, BAD_INDEX, REFUSED};
use std::hint::cold_path;

/// No expression begins here or behind.
const END: usize = 32_768;
/// All the bytes of a quick way that begins before this are before `END`.
const QUICK: usize = 32_736;
/// No cell has this number.
const NOWHERE: usize = 131_072;

/// Bytes read as one, so that a number is tested as one.
#[inline(always)]
fn bytes<const N: usize>(run: &Run, at: usize) -> [u8; N] {
    *run.file[at..].first_chunk().expect("room behind")
}

#[inline(always)]
fn two(run: &Run, at: usize) -> usize {
    usize::from(u16::from_le_bytes(bytes(run, at)))
}

#[inline(always)]
fn constant(run: &Run, at: usize) -> i32 {
    i32::from_le_bytes(bytes(run, at))
}

/// A cell, 0 past the end: a panic would need a frame of its own in whoever asks.
#[inline(always)]
fn cell(run: &Run, number: usize) -> i32 {
    match run.cells.get(number) {
        Some(cell) => *cell,
        None => {
            cold_path();
            0
        }
    }
}

#[inline(always)]
fn scalar(run: &Run, at: usize) -> i32 {
    cell(run, two(run, at))
}

/// A constant or a scalar; the position leaves room for it.
#[inline(always)]
fn leaf(run: &Run, at: usize) -> Option<Told> {
    match run.file[at] {
        0 => Some((constant(run, at + 1), at + 5)),
        1 => {
            cold_path();
            Some((scalar(run, at + 1), at + 3))
        }
        _ => {
            cold_path();
            None
        }
    }
}

/// A scalar and a constant or scalar under an operator that an index is made of; the position leaves room for it.
#[inline(always)]
fn pair(run: &Run, at: usize) -> Option<Told> {
    let file = &run.file;
    if file[at] != 3 || file[at + 2] != 1 {
        return None;
    }
    let (right, next) = leaf(run, at + 5)?;
    let left = scalar(run, at + 3);
    Some((simple(file[at + 1], left, right)?, next))
}

/// The cell of an array at an index: number and index are tested here, the cell where it is used.
#[inline(always)]
fn cell_at(run: &Run, array: usize, index: i32) -> Option<usize> {
    let length = usize::from(*run.arrays.get(array + 16)?);
    let index = index as u32 as usize;
    (index < length).then(|| usize::from(run.arrays[array]) + index)
}

/// The array read at a position, with its index; none refuses it.
#[inline(always)]
fn held(run: &Run, at: usize, index: i32) -> Option<i32> {
    match cell_at(run, two(run, at + 1), index) {
        Some(number) => Some(cell(run, number)),
        None => {
            cold_path();
            None
        }
    }
}

/// What an expression is worth; a constant or a scalar needs no call.
#[inline(always)]
fn operand(run: &Run, at: usize) -> Answer {
    assert!(at < END);
    match run.file[at] {
        0 => Ok((constant(run, at + 1), at + 5)),
        1 => Ok((run.cells[two(run, at + 1)], at + 3)),
        _ => answer(apart(value(run, at))),
    }
}

/// The first byte of an expression, and what it is worth where it is a constant or a scalar.
#[inline(always)]
pub fn known(run: &Run, at: usize) -> (u8, i32) {
    assert!(at < END);
    match run.file[at] {
        1 => (1, run.cells[two(run, at + 1)]),
        0 => (0, constant(run, at + 1)),
        tag => (tag, 0),
    }
}

/// The same of an operator or an array read: the quick ways. All that needs a frame is called last, so that this has none.
#[cold]
#[inline(never)]
pub fn value(run: &Run, at: usize) -> Both {
    if at >= QUICK {
        cold_path();
        return deep(run, at);
    }
    let tag = run.file[at];
    if tag > 2 {
        return operated(run, at);
    }
    if tag < 2 {
        cold_path();
        return deep(run, at);
    }
    match near(run, at + 3) {
        Some((index, next)) => match held(run, at, index) {
            Some(value) => both(value, next),
            None => BAD_INDEX,
        },
        None => entry(run, at),
    }
}

/// A constant, a scalar or a pair.
#[inline(always)]
fn near(run: &Run, at: usize) -> Option<Told> {
    if run.file[at] > 1 {
        return pair(run, at);
    }
    leaf(run, at)
}

#[inline(always)]
fn operated(run: &Run, at: usize) -> Both {
    let first = run.file[at + 2];
    let (left, middle) = if first < 2 {
        match first {
            0 => (constant(run, at + 3), at + 7),
            _ => (scalar(run, at + 3), at + 5),
        }
    } else if first > 2 {
        match pair(run, at + 2) {
            Some(left) => left,
            None => return deep(run, at),
        }
    } else {
        let Some((index, middle)) = near(run, at + 5) else {
            return entry_first(run, at);
        };
        match held(run, at + 2, index) {
            Some(left) => (left, middle),
            None => return BAD_INDEX,
        }
    };
    match leaf(run, middle) {
        Some((right, next)) => apply(run.file[at + 1], left, right, next),
        None => right_last(run, at, left, middle),
    }
}

/// An operator whose right side needs a call.
#[inline(never)]
fn right_last(run: &Run, at: usize, left: i32, middle: usize) -> Both {
    let operator = run.file[at + 1];
    let (right, next) = apart(value(run, middle));
    if next == REFUSED {
        return both(right, REFUSED);
    }
    apply(operator, left, right, next)
}

/// An operator whose left side is an array read that needs a call.
#[inline(never)]
fn entry_first(run: &Run, at: usize) -> Both {
    let (left, middle) = apart(entry(run, at + 2));
    if middle == REFUSED {
        return both(left, REFUSED);
    }
    match operand(run, middle) {
        Ok((right, next)) => apply(run.file[at + 1], left, right, next),
        Err(number) => both(number, REFUSED),
    }
}

/// An array read whose index needs a call.
#[inline(never)]
fn entry(run: &Run, at: usize) -> Both {
    let (index, next) = apart(value(run, at + 3));
    if next == REFUSED {
        return both(index, REFUSED);
    }
    match held(run, at, index) {
        Some(value) => both(value, next),
        None => BAD_INDEX,
    }
}

/// Any expression, with no quick way.
#[inline(never)]
fn deep(run: &Run, at: usize) -> Both {
    if at >= END {
        return both(0, at);
    }
    match run.file[at] {
        0 => return both(constant(run, at + 1), at + 5),
        1 => return both(scalar(run, at + 1), at + 3),
        2 => return entry(run, at),
        _ => {}
    }
    let (left, middle) = match operand(run, at + 2) {
        Ok(told) => told,
        Err(number) => return both(number, REFUSED),
    };
    match operand(run, middle) {
        Ok((right, next)) => apply(run.file[at + 1], left, right, next),
        Err(number) => both(number, REFUSED),
    }
}

/// A scalar compared with a constant: which comparisons hold, and the bit of the one that is asked. Numbers turned so that one
/// test tells the operator and that it compares, another the scalar, that it is one, and the constant behind it.
#[inline(always)]
pub fn comparison(run: &Run, at: usize) -> Option<(u32, u32)> {
    if at >= QUICK {
        cold_path();
        return None;
    }
    let head = u32::from(u16::from_le_bytes(bytes(run, at)));
    let operator = head.wrapping_sub(0x0A03).rotate_right(8);
    if operator > 5 {
        cold_path();
        return None;
    }
    let sides = u64::from(u32::from_le_bytes(bytes(run, at + 2)));
    let number = sides.wrapping_sub(1).rotate_right(8);
    let left = run.cells.get(number as usize)?;
    Some((comparisons(*left, constant(run, at + 6)), operator))
}

/// The cell that a SET of an entry changes and by what: its index, then its expression. Or no cell, and the number that refuses.
#[inline(never)]
pub fn entry_change(run: &Run, array: usize, at: usize) -> Both {
    if at >= QUICK {
        cold_path();
        return index_first(run, array, at);
    }
    let Some((index, next)) = near(run, at) else {
        return index_first(run, array, at);
    };
    let Some(cell) = cell_at(run, array, index) else {
        cold_path();
        return both(33, NOWHERE);
    };
    match leaf(run, next) {
        Some((change, _)) => both(change, cell),
        None => change_last(run, next, cell),
    }
}

/// The same where the index needs a call.
#[inline(never)]
fn index_first(run: &Run, array: usize, at: usize) -> Both {
    let (index, next) = match operand(run, at) {
        Ok(told) => told,
        Err(number) => return both(number, NOWHERE),
    };
    match cell_at(run, array, index) {
        Some(cell) => change_last(run, next, cell),
        None => both(33, NOWHERE),
    }
}

/// The same where the expression needs one.
#[inline(never)]
fn change_last(run: &Run, at: usize, cell: usize) -> Both {
    match apart(value(run, at)) {
        (number, REFUSED) => both(number, NOWHERE),
        (change, _) => both(change, cell),
    }
}
