//! A place as it is lent to a call: raw numbers, which need not make a place at all.

use crate::place::{Direction, Frame, Place, MAX_FRAMES};

/// 1,104 slots, innermost frame first; unused slots hold 0.
#[derive(Clone, Debug, PartialEq, Eq)]
pub struct LentPlace {
    pub direction: u8,
    pub a: u16,
    pub b: u16,
    pub count: u16,
    pub slots: Vec<Frame>,
}

const EMPTY: Frame = Frame { kind: 0, label: 0 };

impl LentPlace {
    /// All zeros: what a refused reading returns. It fits no program, for NAMES lies on no edge.
    pub fn blank() -> LentPlace {
        LentPlace {
            direction: 0,
            a: 0,
            b: 0,
            count: 0,
            slots: vec![EMPTY; MAX_FRAMES],
        }
    }

    pub fn of(place: &Place) -> LentPlace {
        let mut slots = place.frames.clone();
        slots.resize(MAX_FRAMES, EMPTY);
        LentPlace {
            direction: place.direction.code(),
            a: place.a,
            b: place.b,
            count: u16::try_from(place.frames.len()).expect("a fitting place has few frames"),
            slots,
        }
    }

    /// Innermost first; every slot where the count is too large.
    pub fn used(&self) -> &[Frame] {
        &self.slots[..self.used_count()]
    }

    pub fn unused(&self) -> &[Frame] {
        &self.slots[self.used_count()..]
    }

    fn used_count(&self) -> usize {
        usize::from(self.count).min(self.slots.len())
    }

    /// None where no program can have it (21): direction, count, or a used slot past the count.
    pub fn place(&self) -> Option<Place> {
        let direction = Direction::from_code(self.direction)?;
        let count = usize::from(self.count);
        if self.slots.len() != MAX_FRAMES || count > MAX_FRAMES {
            return None;
        }
        let (frames, unused) = self.slots.split_at(count);
        let all_unused = unused.iter().all(|slot| *slot == EMPTY);
        all_unused.then(|| Place {
            direction,
            a: self.a,
            b: self.b,
            frames: frames.to_vec(),
        })
    }
}
