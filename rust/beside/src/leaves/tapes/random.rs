//! Random traces in random blocks, on stacks of which some are broken, with an end now and then before the last of them.

use super::super::count::Compared;
use super::super::replays;
use super::cuts::Cut;
use super::pair::{Pair, Whole};
use crate::drive::spoil;
use crate::plain::Replay;
use crate::reading::Reading;
use crate::rng::Rng;

const BLOCKS: u64 = 1_000_000;
/// So many traces are cut into blocks of all pairs of sizes too.
const BY_SIZES: u64 = 200;

pub fn compared() -> Compared {
    let mut rng = Rng::new(2);
    let (mut blocks, mut compared) = (0, 0);
    while blocks < BLOCKS {
        let mut pair = ended(&mut rng, &mut blocks)?;
        pair.finish()?;
        compared += pair.compared;
    }
    let by_sizes: Compared = (0..BY_SIZES).map(|_| by_sizes(&mut rng)).sum();
    Ok(compared + by_sizes?)
}

/// All blocks of a trace, with an end before those that are left.
fn ended(rng: &mut Rng, blocks: &mut u64) -> Result<Pair, String> {
    let (stack, run, trace) = (stack(rng), run(rng), replays::trace(rng));
    let early = rng.once_in(8).then(|| rng.below(trace.len() as u64) as usize);
    let (before, behind) = trace.split_at(early.unwrap_or(trace.len()));
    let whole = Whole::of(&stack, &run, before)?;
    let noise = rng.once_in(2).then(|| Rng::new(rng.next()));
    let mut pair = Pair::begun(&stack, &run, noise);
    *blocks += fed(&mut pair, rng, before)?;
    pair.finish()?;
    pair.ends_as(&whole)?;
    *blocks += fed(&mut pair, rng, behind)?;
    pair.ends_as(&whole)?;
    Ok(pair)
}

/// How many blocks it was.
fn fed(pair: &mut Pair, rng: &mut Rng, bytes: &[u8]) -> Compared {
    let (mut blocks, mut rest) = (0, bytes);
    while !rest.is_empty() {
        let (block, behind) = rest.split_at(size(rng).min(rest.len()));
        pair.feed(block)?;
        (blocks, rest) = (blocks + 1, behind);
    }
    Ok(blocks)
}

/// Mostly small, often near a record's.
fn size(rng: &mut Rng) -> usize {
    let size = match rng.below(4) {
        0 => rng.below(4),
        1 => rng.below(40),
        2 => rng.range(37, 43),
        _ => rng.below(200),
    };
    size as usize
}

fn by_sizes(rng: &mut Rng) -> Compared {
    let (stack, run, trace) = (stack(rng), run(rng), replays::trace(rng));
    let whole = Whole::of(&stack, &run, &trace)?;
    let cut = Cut {
        stack: &stack,
        run: &run,
        trace: &trace,
        whole: &whole,
    };
    cut.by_sizes()
}

/// Of eight one is broken in one to three places.
fn stack(rng: &mut Rng) -> Reading {
    let mut stack = replays::stack(rng);
    if rng.once_in(8) {
        (0..rng.range(1, 3)).for_each(|_| spoil(rng, &mut stack));
    }
    stack
}

/// The beginning or the middle of a run; seldom more is spent than was given, or it has stopped.
fn run(rng: &mut Rng) -> Replay {
    let before = rng.pick(&[0, 0, 0, u64::MAX - 500]);
    Replay {
        number: before,
        fuel: before + rng.pick(&[4, 20, 200]),
        spent: before + rng.pick(&[0, 0, 0, 9]),
        stopped: rng.once_in(32).then(|| rng.below(9)),
    }
}
