//! What NAMES declares, and where each name's cells lie in the store.

use crate::number::Number;

pub const MAX_SCALARS: u16 = 64;
pub const MAX_ARRAYS: usize = 16;
pub const MAX_LENGTH: u16 = 1024;
pub const MAX_CELLS: usize = 2048;

#[derive(Clone, Debug, PartialEq, Eq)]
pub struct Names {
    pub scalars: u16,
    pub lengths: Vec<u16>,
}

impl Names {
    pub fn cells(&self) -> usize {
        usize::from(self.scalars) + self.lengths.iter().map(|&n| usize::from(n)).sum::<usize>()
    }

    pub fn within_sizes(&self) -> bool {
        self.scalars <= MAX_SCALARS
            && self.lengths.len() <= MAX_ARRAYS
            && self.lengths.iter().all(|n| (1..=MAX_LENGTH).contains(n))
            && self.cells() <= MAX_CELLS
    }

    pub fn has_scalar(&self, scalar: u16) -> bool {
        scalar < self.scalars
    }

    pub fn has_array(&self, array: u16) -> bool {
        usize::from(array) < self.lengths.len()
    }

    /// Scalars come first in the store.
    pub fn scalar_cell(&self, scalar: u16) -> usize {
        usize::from(scalar)
    }

    /// Tests the index (33), then answers the cell.
    pub fn array_cell(&self, array: u16, index: i32) -> Result<usize, Number> {
        let array = usize::from(array);
        let index = usize::try_from(index).map_err(|_| Number::Index)?;
        if index >= usize::from(self.lengths[array]) {
            return Err(Number::Index);
        }
        let before: usize = self.lengths[..array].iter().map(|&n| usize::from(n)).sum();
        Ok(usize::from(self.scalars) + before + index)
    }
}
