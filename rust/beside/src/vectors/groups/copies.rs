//! Parameters that are copied down, by how far above their new place they lie and how many there are.

use super::claims::{asked, opened};
use super::kinds::push;
use crate::vectors::maker::{Made, Maker};

/// Where the frame begins whose parameters are copied.
const START: usize = 2;

pub struct CopyDown {
    pub head: u16,
    pub params: u16,
}

const fn copy(head: u16, params: u16) -> CopyDown {
    CopyDown { head, params }
}

/// None, one and some, with every overlap.
pub const SHORT: &[CopyDown] = &[
    copy(1, 0),
    copy(0, 1),
    copy(1, 1),
    copy(1, 2),
    copy(1, 3),
    copy(2, 3),
    copy(3, 3),
    copy(4, 3),
    copy(5, 2),
    copy(0, 4),
    copy(1, 4),
    copy(3, 4),
    copy(4, 4),
    copy(1, 5),
    copy(4, 5),
    copy(5, 5),
    copy(2, 6),
];

/// Both sides of 8 cells, up to which the copying goes cell by cell, and as many as there are.
pub const LONG: &[CopyDown] = &[
    copy(1, 8),
    copy(7, 8),
    copy(8, 8),
    copy(1, 9),
    copy(8, 9),
    copy(9, 9),
    copy(1, 61),
    copy(30, 31),
    copy(31, 31),
];

/// Both sides of 4,096 cells, of which a block has as many, of two blocks, and of all that a count can say.
pub const WIDE: &[CopyDown] = &[
    copy(1, 4_095),
    copy(1, 4_096),
    copy(4_095, 4_096),
    copy(4_096, 4_096),
    copy(1, 4_097),
    copy(4_096, 4_097),
    copy(4_097, 4_097),
    copy(1, 8_193),
    copy(4_097, 8_193),
    copy(1, 65_534),
    copy(32_768, 32_767),
    copy(0, 65_535),
];

impl CopyDown {
    /// How many cells, and from where.
    pub fn said(&self) -> String {
        let cells = if self.params == 1 { "cell" } else { "cells" };
        format!("{} {cells} from {} further up, as if all were read first", self.params, self.head)
    }

    /// One frame at 2 over as many cells as it takes.
    pub fn stand(&self, maker: &mut Maker) -> Made<()> {
        let slots = self.head + self.params;
        let cells = START as u64 + u64::from(slots);
        opened(maker, [8 * cells, 1, 4, cells])?;
        asked(maker, &push(None, [START as u16, 0, 0, slots]), 0).map(|_| ())
    }

    /// The cells after it, so many of them zeroed behind the parameters.
    pub fn copied(&self, zeroed: usize) -> Vec<u64> {
        let (head, params) = (usize::from(self.head), usize::from(self.params));
        let mut cells: Vec<u64> = (2000..).take(START + head + params).collect();
        let read = cells[START + head..].to_vec();
        cells[START..START + params].copy_from_slice(&read);
        cells[START + params..START + params + zeroed].fill(0);
        cells
    }
}
