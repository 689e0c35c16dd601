//! Trace bytes, good and spoilt: records read, written and replayed, with enough fuel and without. Ours beside the reading.

use super::{Failure, Tally, openings, run, steps};
use crate::case::{Case, Start, Step, Task};
use crate::plain::{Replay, Request, Straight};
use crate::reading::{RECORD_BYTES, Reading, write_record};
use crate::rng::Rng;

/// At least so many steps.
pub fn traces(seed: u64, count: u64) -> Result<Tally, Failure> {
    let mut tally = Tally::default();
    let mut rng = Rng::new(seed);
    while tally.total() < count {
        run(&any(&mut rng), &mut tally)?;
    }
    Ok(tally)
}

/// A state, now and then no sound one, and one of each task on a trace.
fn any(rng: &mut Rng) -> Case {
    let mut stack = opened(rng);
    stack.state.depth += u64::from(rng.once_in(32));
    let trace = trace(rng, stack.clone());
    let at = place(rng, trace.len() as u64);
    let spelt = any_straight(rng, &stack);
    let tasks = [Task::Read(at), Task::Write(at, spelt), Task::Replay(start_of_run(rng))];
    let steps = tasks.map(|task| Step::Trace(task, trace.clone())).to_vec();
    Case {
        start: Start::Given {
            state: stack.state,
            words: stack.words,
            cells: stack.cells,
        },
        steps,
    }
}

fn opened(rng: &mut Rng) -> Reading {
    let opening = openings::any(rng);
    let (words, cells) = opening.buffers();
    Reading::open(opening.bytes, opening.depth, words, cells).1
}

/// Written by the reading from requests that follow one another, then spoilt.
pub fn trace(rng: &mut Rng, mut stack: Reading) -> Vec<u8> {
    let mut trace = vec![0; RECORD_BYTES * rng.below(8) as usize];
    for at in (0..trace.len()).step_by(RECORD_BYTES) {
        let q = any_request(rng, &stack);
        write_record(&mut trace, at as u64, &q);
        stack.ask(&q);
    }
    spoil(rng, &mut trace);
    trace
}

/// Changes up to two bytes, and now and then cuts the end off.
fn spoil(rng: &mut Rng, trace: &mut Vec<u8>) {
    for _ in 0..rng.below(3) {
        let byte = if rng.once_in(2) { rng.next() } else { rng.below(4) } as u8;
        let at = rng.below(trace.len() as u64) as usize;
        trace.get_mut(at).into_iter().for_each(|place| *place = byte);
    }
    if rng.once_in(4) {
        trace.truncate(rng.below(trace.len() as u64 + 1) as usize);
    }
}

fn any_request(rng: &mut Rng, stack: &Reading) -> Request {
    let kind = rng.pick(&[1, 1, 1, 2, 3, 3, 4, 5, 6, 7, 8, 9, 9]);
    steps::request(rng, kind, stack)
}

/// The numbers of a record, whose flags may be above 1; of half of them one number is another.
fn any_straight(rng: &mut Rng, stack: &Reading) -> Straight {
    let mut q = Straight::as_read(&any_request(rng, stack));
    (q.caller_flag, q.instance_flag) = (q.caller_flag * rng.range(1, 9), q.instance_flag * rng.range(1, 9));
    let (small, any) = (rng.below(3), rng.next());
    match rng.below(22) {
        0 => q.kind = rng.below(11),
        1 => q.kind = any,
        2 => q.head = small as u16,
        3 => q.params = small as u16,
        4 => q.locals = small as u16,
        5 => q.slots = small as u16,
        6 => q.results = small as u16,
        7 => q.caller_flag = small,
        8 => q.caller = small,
        9 => q.instance_flag = small,
        10 => (q.callee, q.instance) = (small, any & 1),
        _ => {}
    }
    q
}

/// A record's place, one beside it, just too near the end, or beyond it.
fn place(rng: &mut Rng, length: u64) -> u64 {
    match rng.below(8) {
        0 => rng.below(length + 2),
        1 => (length + rng.below(3)).wrapping_sub(RECORD_BYTES as u64 + 1),
        2 => u64::MAX - rng.below(41),
        _ => rng.below(length / RECORD_BYTES as u64 + 1) * RECORD_BYTES as u64,
    }
}

/// The beginning, the middle or the end of a run.
pub fn start_of_run(rng: &mut Rng) -> Replay {
    let fuel = if rng.once_in(2) { rng.below(40) } else { u64::MAX };
    let spent = if rng.once_in(4) { rng.below(40).min(fuel) } else { 0 };
    let stopped = rng.once_in(16).then(|| rng.below(9));
    Replay {
        number: rng.below(3),
        fuel,
        spent,
        stopped,
    }
}
