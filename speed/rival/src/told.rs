//! What an evaluation gives: a value and where its expression ends, in two registers.

use std::hint::cold_path;

/// A value and the position behind its expression; or the number that refuses it, and `REFUSED`.
pub type Told = (i32, usize);

/// No expression ends at the beginning of the file.
pub const REFUSED: usize = 0;

/// The same in one number of two registers, as a call gives it: what is called last then needs no frame here.
pub type Both = u128;

#[inline(always)]
pub const fn both(value: i32, next: usize) -> Both {
    value as u32 as u128 | (next as u128) << 64
}

#[inline(always)]
pub const fn apart(both: Both) -> Told {
    (both as u32 as i32, (both >> 64) as usize)
}

pub const BAD_INDEX: Both = both(33, REFUSED);

/// The same, where it is inlined: a leaf is then never tested for a refusal.
pub type Answer = Result<Told, i32>;

#[inline(always)]
pub fn answer((value, next): Told) -> Answer {
    match next {
        REFUSED => {
            cold_path();
            Err(value)
        }
        _ => Ok((value, next)),
    }
}
