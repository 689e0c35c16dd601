//! Growth by itself: a host without frame, ip and counts grows to its head.

use super::super::claims::{asked, expect, opened};
use super::super::kinds::{MOST, host};
use crate::vectors::maker::{Made, Maker};

/// What is shown, M and L, `len` before, and the lengths that are needed, each with its number.
type Group = (&'static str, [u64; 3], &'static [(u16, u64)]);

const GROUPS: &[Group] = &[
    (
        "growth of 4 cells with M 10 and L 20: to 0, 3 and 4 nothing grows; 5 and 10 are reached; 11, 20, 21 and 65,535 are above M",
        [10, 20, 4],
        &[(0, 0), (3, 0), (4, 0), (11, 2), (20, 2), (21, 2), (MOST, 2), (5, 0), (10, 0)],
    ),
    (
        "growth of 4 cells with M 10 and L 8: 9 and 10 are above L, 11 is above M too; 8 is reached",
        [10, 8, 4],
        &[(9, 3), (10, 3), (11, 2), (8, 0)],
    ),
    (
        "growth of none with M 0 and L 0: 0 is there, 1 is above M",
        [0, 0, 0],
        &[(0, 0), (1, 2)],
    ),
    ("growth of none with M 1 and L 0: 1 is above L", [1, 0, 0], &[(1, 3)]),
    ("growth of none with M 0 and L 1: 1 is above M", [0, 1, 0], &[(1, 2)]),
    ("growth of none with M 1 and L 1: 1 is reached", [1, 1, 0], &[(1, 0)]),
];

pub fn make(maker: &mut Maker) -> Made<()> {
    for (words, [height, cells, len], needed) in GROUPS {
        maker.says(words);
        opened(maker, [8 * height, 0, 0, *cells])?;
        grown(maker, *len as u16, 0)?;
        needed.iter().try_for_each(|(needed, number)| grown(maker, *needed, *number))?;
    }
    Ok(())
}

/// `len` becomes what is needed where that is more.
fn grown(maker: &mut Maker, needed: u16, number: u64) -> Made<()> {
    let before = maker.state().len;
    asked(maker, &host(None, [needed, 0, 0]), number)?;
    let wanted = if number == 0 { before.max(needed.into()) } else { before };
    expect("len", maker.state().len, wanted)
}
