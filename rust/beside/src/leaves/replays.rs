//! Replays of bytes that are good, bad and cut short, with any fuel: ours beside the plain reading's replay, in every word and cell.

use super::count::Compared;
use super::seat::Seat;
use crate::case::{FRAME_WORDS, Opening, Start, Step, Task};
use crate::plain::{Regs, Replay, Request};
use crate::reading::{RECORD_BYTES, Reading, replay, write_record};
use crate::rng::Rng;

const STACKS: u64 = 50_000;
const TRACES: u64 = 2;

/// How many records were replayed.
pub fn compared() -> Compared {
    let mut rng = Rng::new(1);
    let mut records = 0;
    for _ in 0..STACKS {
        records += one(&mut rng)?;
    }
    Ok(records)
}

/// One stack and traces on it, each from where the one before ended or stopped. Seldom more is spent than was given.
fn one(rng: &mut Rng) -> Compared {
    let Reading { state, words, cells } = stack(rng);
    let mut seat = Seat::new(Start::Given { state, words, cells })?;
    let before = rng.pick(&[0, 0, 0, u64::MAX - 500]);
    let (mut run, mut records) = (Replay::default(), 0);
    (run.number, run.fuel, run.spent) = (before, before, before + rng.pick(&[0, 0, 0, 9]));
    for _ in 0..TRACES {
        run.fuel += rng.pick(&[4, 20, 200]);
        run.stopped = run.stopped.filter(|_| rng.once_in(4));
        let trace = trace(rng);
        let mut stack = seat.now().clone();
        seat.take(Step::Trace(Task::Replay(run), trace.clone()), 0)?;
        run = replay(&mut stack, run, &trace, |_, _| records += 1);
    }
    Ok(records)
}

/// A small stack with registers; seldom one whose state is broken.
pub fn stack(rng: &mut Rng) -> Reading {
    let (depth, cells) = (rng.below(6), rng.below(24));
    let opening = Opening {
        bytes: (8 * cells + rng.below(20)).saturating_sub(4),
        depth,
        words: FRAME_WORDS * depth,
        cells,
        fill: rng.next(),
    };
    let (words, cells) = opening.buffers();
    let mut stack = Reading::open(opening.bytes, depth, words, cells).1;
    stack.state.count += u64::from(rng.once_in(16));
    stack.state.regs = Regs {
        ireg: rng.next(),
        freg32: rng.next() as u32,
        freg64: rng.next(),
    };
    stack
}

/// Good and bad records; of four traces one ends short.
pub fn trace(rng: &mut Rng) -> Vec<u8> {
    let mut trace: Vec<u8> = (0..rng.below(16)).flat_map(|i| record(rng, i == 0)).collect();
    if rng.once_in(4) {
        trace.truncate(trace.len().saturating_sub(rng.range(1, 39) as usize));
    }
    trace
}

/// A lawful record, one with a bit changed, one whose kind and flags are near lawful ones, or any bytes.
fn record(rng: &mut Rng, first: bool) -> [u8; RECORD_BYTES] {
    let mut record = [0; RECORD_BYTES];
    write_record(&mut record, 0, &request(rng, first));
    match rng.below(16) {
        0 => record[rng.below(RECORD_BYTES as u64) as usize] ^= 1 << rng.below(8),
        1 => (record[0], record[1]) = (rng.below(11) as u8, rng.below(5) as u8),
        2 => record.fill_with(|| rng.next() as u8),
        _ => {}
    }
    record
}

/// A request with small counts, mostly in order; the first one gives no caller ip.
fn request(rng: &mut Rng, first: bool) -> Request {
    let kind = rng.pick(&[1, 1, 1, 1, 2, 3, 3, 4, 5, 6, 7, 8, 9, 9]);
    let mut small = |end| rng.below(end) as u16;
    let (head, params, results) = (small(4), small(3), small(4));
    let locals = (params + small(3)).saturating_sub(small(2));
    let slots = (locals + small(3)).saturating_sub(small(2));
    let caller = (!first && !rng.once_in(8)).then(|| rng.next());
    Request {
        kind: if first { 1 } else { kind },
        head,
        params,
        locals,
        slots,
        results,
        caller,
        callee: rng.next(),
        instance: rng.once_in(2).then(|| rng.below(3)),
    }
}
