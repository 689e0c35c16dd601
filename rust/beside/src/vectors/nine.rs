//! The causes of 9, one line each, and those of 14.

use super::line::{HIGHER, LOWER, Line};
use crate::case::FRAME_WORDS;
use crate::reading::Reading;

const MAX_DEPTH: u128 = 65_536;
const MAX_BYTES: u128 = 8_388_608;
const MAX_CELLS: u128 = 1_048_576;

/// What is wrong with a frame that is read, the newest first.
const ROWS: [[&str; 3]; 2] = [
    ["top start above len", "top flag above 1", "top flag 0 with an instance"],
    ["next start above len", "next flag above 1", "next flag 0 with an instance"],
];

/// Where the state and the lent lengths are looked at, and so many of the newest frames.
///
/// 4·D is what a machine makes of it: it wraps, which must not show since D is tested before.
pub fn nine(world: &Reading, frames: u64) -> Vec<Line> {
    let s = &world.state;
    let [depth, height, words, cells, count, len] = [s.depth, s.height, s.words, s.cells, s.count, s.len].map(u128::from);
    let (lent_words, lent_cells) = (world.words.len() as u128, world.cells.len() as u128);
    let above = |cause, found, bound| Line::above(cause, 9, found, bound);
    let mut lines = vec![
        above("fewer words lent", words, lent_words),
        above("more words lent", lent_words, words),
        above("fewer cells lent", cells, lent_cells),
        above("more cells lent", lent_cells, cells),
        above("D above its limit", depth, MAX_DEPTH),
        above("M above its limit", height, MAX_CELLS),
        above("L above its limit", cells, MAX_CELLS),
        above("4 D above the words", u128::from(s.depth.wrapping_mul(FRAME_WORDS)), words),
        above("count above D", count, depth),
        above("len above L", len, cells),
        above("len above M", len, height),
    ];
    lines.extend((0..frames).flat_map(|older| row_lines(world, older)));
    lines
}

/// A frame that does not lie in the words is counted as wrong in everything: no line is shown by it.
fn row_lines(world: &Reading, older: u64) -> [Line; 3] {
    let [start_above, flag_above, instance_beside] = ROWS[older as usize];
    let there = world.state.count > older;
    let Some([_, start, flag, debt]) = row(world, older) else {
        let line = |cause| Line::when(cause, 9, there);
        let bound = |cause| line(cause).slip(LOWER, there).slip(HIGHER, there);
        return [bound(start_above), bound(flag_above), line(instance_beside)];
    };
    let len = u128::from(world.state.len);
    [
        Line::above(start_above, 9, start.into(), len).and(there),
        Line::above(flag_above, 9, flag.into(), 1).and(there),
        Line::when(instance_beside, 9, there && flag == 0 && debt != 0),
    ]
}

/// A frame's row, where the words have it.
fn row(world: &Reading, older: u64) -> Option<[u64; 4]> {
    let index = world.state.count.checked_sub(older + 1)?;
    let at = usize::try_from(index.checked_mul(4)?).ok()?;
    world.words.get(at..at.checked_add(4)?)?.try_into().ok()
}

/// The newest frame's start, 0 without frames; nothing where the words do not have it.
pub fn top_start(world: &Reading) -> Option<u128> {
    if world.state.count == 0 {
        return Some(0);
    }
    row(world, 0).map(|[_, start, ..]| start.into())
}

/// The causes of 14.
pub fn fourteen(bytes: u64, depth: u64, words: usize, cells: usize) -> Vec<Line> {
    let above = |cause, found, bound| Line::above(cause, 14, found, bound);
    vec![
        above("bytes above their limit", bytes.into(), MAX_BYTES),
        above("D above its limit", depth.into(), MAX_DEPTH),
        above("L above its limit", cells as u128, MAX_CELLS),
        above("4 D above the words", depth.wrapping_mul(FRAME_WORDS).into(), words as u128),
    ]
}
