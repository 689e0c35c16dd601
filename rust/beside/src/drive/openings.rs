//! Openings of many sizes, so that every limit is near: M around L, words just enough or not, and now and then beyond what is allowed.

use crate::case::{FRAME_WORDS, Opening};
use crate::rng::Rng;

pub fn any(rng: &mut Rng) -> Opening {
    let (depth, cells) = sizes(rng);
    let height = near(rng, cells);
    let opening = Opening {
        bytes: 8 * height + rng.below(8),
        depth,
        words: FRAME_WORDS * depth + rng.below(FRAME_WORDS),
        cells,
        fill: rng.next(),
    };
    if rng.once_in(64) { beyond(rng, opening) } else { opening }
}

/// Depth limit and cells lent: mostly small, seldom so many that sums need more than 16 bits.
fn sizes(rng: &mut Rng) -> (u64, u64) {
    if rng.once_in(1024) {
        return (rng.range(2, 300), rng.range(60_000, 140_000));
    }
    match rng.below(16) {
        0..=3 => (rng.below(4), rng.below(9)),
        4..=12 => (rng.range(1, 12), rng.range(4, 48)),
        13 | 14 => (rng.range(8, 40), rng.range(40, 160)),
        _ => (rng.range(1, 64), rng.range(100, 700)),
    }
}

fn near(rng: &mut Rng, cells: u64) -> u64 {
    match rng.below(4) {
        0 => cells,
        1 => (cells + rng.below(3)).saturating_sub(1),
        2 => cells + rng.below(8),
        _ => cells.saturating_sub(rng.below(8)),
    }
}

/// One limit at its end or one more. The largest buffers are left to the run at the mission's sizes.
fn beyond(rng: &mut Rng, opening: Opening) -> Opening {
    match rng.below(4) {
        0 => Opening {
            bytes: rng.range(8_388_607, 8_388_610),
            ..opening
        },
        1 => Opening {
            depth: opening.depth + 1,
            words: (FRAME_WORDS * (opening.depth + 1)).saturating_sub(rng.below(3)),
            ..opening
        },
        2 => Opening {
            bytes: u64::MAX - rng.below(8),
            ..opening
        },
        _ => Opening {
            depth: rng.pick(&[65_536, 65_537, 1 << 62, 1 << 63, u64::MAX]),
            ..opening
        },
    }
}
