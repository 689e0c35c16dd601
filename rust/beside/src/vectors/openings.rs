//! Openings: those that the walks go through, and both sides of every limit.

use super::maker::{Made, Maker};
use super::moves::Move;
use crate::case::FRAME_WORDS;
use crate::example::NOTHING;
use crate::plain::Request;

/// A height limit in cells and seven bytes more, which the division drops; depth limit, words beyond four for each frame, cells.
const fn world(height: u64, depth: u64, more_words: u64, cells: u64) -> [u64; 4] {
    [8 * height + 7, depth, FRAME_WORDS * depth + more_words, cells]
}

/// M below, equal to and above L; D and L small and large. Beside each how many steps are taken in each mood.
pub const WALKED: [([u64; 4], usize); 18] = [
    (world(10, 3, 0, 10), 18),
    (world(10, 3, 0, 8), 18),
    (world(8, 3, 1, 10), 18),
    (world(5, 1, 0, 5), 10),
    (world(6, 2, 0, 10), 12),
    (world(12, 2, 3, 10), 12),
    (world(64, 64, 0, 64), 20),
    (world(40, 64, 0, 64), 20),
    (world(100, 64, 0, 64), 20),
    (world(64, 16, 0, 63), 18),
    (world(1, 3, 0, 1), 8),
    (world(3, 3, 0, 1), 8),
    (world(5, 2, 0, 0), 6),
    (world(0, 2, 0, 10), 6),
    (world(10, 0, 0, 10), 4),
    (world(10, 0, 7, 3), 4),
    (world(20, 5, 200, 24), 18),
    (world(1_048_575, 8, 0, 32), 18),
];

pub const WALKED_ALONE: [([u64; 4], usize); 4] = [
    (world(10, 3, 0, 10), 14),
    (world(26, 8, 2, 24), 16),
    (world(40, 64, 0, 64), 18),
    (world(64, 16, 0, 63), 16),
];

/// What a group shows, and its openings.
type Group = (&'static str, &'static [[u64; 4]]);

const LIMITS: [Group; 5] = [
    ("nothing lent, and fewer bytes than a cell has", &[[0, 0, 0, 0], [7, 0, 0, 0]]),
    (
        "8,388,608 bytes at most, else 14",
        &[
            [8, 1, 4, 1],
            [8_388_607, 1, 4, 1],
            [8_388_608, 1, 4, 1],
            [8_388_609, 1, 4, 1],
            [8_388_615, 1, 4, 1],
            [8_388_616, 1, 4, 1],
            [u64::MAX, 1, 4, 1],
        ],
    ),
    (
        "four words at least for each frame, else 14",
        &[
            [80, 1, 3, 10],
            [80, 1, 0, 10],
            [80, 3, 11, 10],
            [80, 3, 12, 10],
            [80, 3, 13, 10],
            [80, 64, 255, 64],
            [80, 64, 256, 64],
            [80, 65, 256, 64],
        ],
    ),
    (
        "65,536 frames at most, else 14",
        &[
            [80, 65_536, 256, 64],
            [80, 65_536, 262_144, 64],
            [80, 65_537, 262_148, 64],
            [80, 65_537, 256, 64],
        ],
    ),
    (
        "depths whose fourfold wraps are 14",
        &[[80, 1 << 62, 256, 64], [80, 1 << 63, 0, 0], [80, u64::MAX, 256, 64]],
    ),
];

/// Each limit's both sides. A refused opening leaves a state of zeros, over which everything is 9 where anything is lent.
pub fn make(maker: &mut Maker) -> Made<()> {
    maker.file(
        "openings",
        "Openings at both sides of every limit, and a push and a register sync after each.",
    );
    maker.sums();
    for (words, openings) in LIMITS {
        maker.says(words);
        openings.iter().try_for_each(|opening| tried(maker, *opening))?;
    }
    Ok(())
}

fn tried(maker: &mut Maker, opening: [u64; 4]) -> Made<()> {
    maker.open(opening)?;
    maker.asked(&Move::Ask(PUSH))?;
    maker.asked(&Move::integer(5)).map(|_| ())
}

const PUSH: Request = Request {
    kind: 1,
    locals: 1,
    slots: 1,
    callee: 7,
    ..NOTHING
};
