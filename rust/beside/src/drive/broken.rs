//! States and words that no run leads to: ours beside the reading alone, since the Rust has no answer to them.

use super::steps::{self, Mood};
use super::{Failure, Tally, openings, run};
use crate::case::{Case, FRAME_WORDS, Start, Step};
use crate::plain::{HostFrame, State};
use crate::reading::Reading;
use crate::rng::Rng;

/// At least so many steps on states that were broken in one to three places.
pub fn broken(seed: u64, count: u64) -> Result<Tally, Failure> {
    let mut tally = Tally::default();
    let mut rng = Rng::new(seed);
    while tally.total() < count {
        if let Some(case) = broken_case(&mut rng) {
            run(&case, &mut tally)?;
        }
    }
    Ok(tally)
}

/// The end of a short sound run, broken in some places, and a few steps on it.
fn broken_case(rng: &mut Rng) -> Option<Case> {
    let mood = rng.pick(&steps::MOODS);
    let mut stack = sound(rng, &mood)?;
    for _ in 0..rng.range(1, 3) {
        spoil(rng, &mut stack);
    }
    let steps = (0..rng.range(1, 4))
        .map(|_| steps::next(rng, &mood, &stack, &HostFrame::default()))
        .collect();
    Some(Case {
        start: Start::Given {
            state: stack.state,
            words: stack.words,
            cells: stack.cells,
        },
        steps,
    })
}

/// A stack with few cells after some requests; nothing where it does not open.
pub fn sound(rng: &mut Rng, mood: &Mood) -> Option<Reading> {
    let mut opening = openings::any(rng);
    opening.cells = opening.cells.min(24);
    let (words, cells) = opening.buffers();
    let (number, mut stack) = Reading::open(opening.bytes, opening.depth, words, cells);
    for _ in 0..rng.below(8) {
        if let Step::Ask(q) = steps::next(rng, mood, &stack, &HostFrame::default()) {
            stack.ask(&q);
        }
    }
    (number == 0).then_some(stack)
}

/// Breaks one thing, or moves it to where it is just not broken.
pub fn spoil(rng: &mut Rng, stack: &mut Reading) {
    let s = &mut stack.state;
    match rng.below(12) {
        0 => s.depth = wrong(rng, s.depth, 65_536),
        1 => s.height = wrong(rng, s.height, 1_048_576),
        2 => s.words = wrong(rng, s.words, FRAME_WORDS * (s.depth & 0xffff)),
        3 => s.cells = wrong(rng, s.cells, 1_048_576),
        4 => s.count = wrong(rng, s.count, s.depth),
        5 => s.len = wrong(rng, s.len, s.cells.min(s.height)),
        6 => resize(rng, &mut stack.words),
        7 => resize(rng, &mut stack.cells),
        _ => spoil_row(rng, *s, &mut stack.words),
    }
}

/// A number beside the one it was, at a limit or beside it, or one whose fourfold wraps.
fn wrong(rng: &mut Rng, was: u64, limit: u64) -> u64 {
    let end = rng.pick(&[was, limit, 0, u64::MAX, 1 << 62, 1 << 63]);
    end.wrapping_add(rng.below(3)).wrapping_sub(1)
}

fn resize(rng: &mut Rng, buffer: &mut Vec<u64>) {
    let length = wrong_length(rng, buffer.len());
    buffer.resize(length, 5);
}

fn wrong_length(rng: &mut Rng, was: usize) -> usize {
    rng.pick(&[was + 1, was.saturating_sub(1), 0, was.saturating_sub(4), was + 4])
}

/// A word of one of the three newest frames: start, flag or debt.
fn spoil_row(rng: &mut Rng, s: State, words: &mut [u64]) {
    let row = s.count.wrapping_sub(1).wrapping_sub(rng.below(3));
    let field = rng.range(1, 3);
    let at = row.wrapping_mul(FRAME_WORDS).wrapping_add(field);
    let Some(word) = words.get_mut(at as usize) else {
        return;
    };
    *word = match field {
        1 => rng.pick(&[s.len, s.len.wrapping_add(1), s.len.wrapping_sub(1), u64::MAX, 0]),
        2 => rng.pick(&[0, 1, 2, u64::MAX]),
        _ => rng.pick(&[0, 1, u64::MAX]),
    };
}
