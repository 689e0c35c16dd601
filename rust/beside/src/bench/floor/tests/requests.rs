//! Requests on sound and broken stacks made at random, and those of the traces that are timed.

use super::{ask_both, replay_both};
use crate::bench::trace::SORTS;
use crate::drive::made::{MOODS, request, sound, spoil, start_of_run, trace};
use crate::plain::{Regs, Replay};
use crate::reading::{RECORD_BYTES, Reading, read_record};
use crate::rng::Rng;
use std::collections::BTreeSet;

/// Every answer number of the five kinds, in document 01's order of refusals.
const NUMBERS: [(u64, &[u64]); 5] = [
    (1, &[0, 9, 2, 4, 6, 5, 3]),
    (2, &[0, 1, 9, 4]),
    (3, &[0, 9, 4, 5, 2, 3, 7]),
    (4, &[0, 9, 4, 2, 3]),
    (5, &[0, 1, 9, 4, 7, 2, 3]),
];

/// A stack with any registers, one in four broken in one or two places.
fn any_stack(rng: &mut Rng) -> Option<Reading> {
    let mood = rng.pick(&MOODS);
    let mut stack = sound(rng, &mood)?;
    stack.state.regs = Regs {
        ireg: rng.next(),
        freg32: rng.next() as u32,
        freg64: rng.next(),
    };
    let spoilt = if rng.once_in(4) { rng.range(1, 2) } else { 0 };
    (0..spoilt).for_each(|_| spoil(rng, &mut stack));
    Some(stack)
}

#[test]
fn every_number_as_the_reading_gives_it() {
    let (mut rng, mut seen) = (Rng::new(21), BTreeSet::new());
    for noise in 0..400_000 {
        let (stack, kind) = (any_stack(&mut rng), rng.range(1, 5));
        if let Some(mut stack) = stack {
            let q = request(&mut rng, kind, &stack);
            seen.insert((kind, ask_both(&mut stack, &q, noise).number));
        }
    }
    let all = NUMBERS
        .iter()
        .flat_map(|(kind, numbers)| numbers.iter().map(|number| (*kind, *number)));
    assert_eq!(seen, all.collect());
}

#[test]
fn replays_of_any_bytes_as_the_reading_has_them() {
    let (mut rng, mut stopped) = (Rng::new(22), 0);
    for noise in 0..60_000 {
        if let Some(mut stack) = any_stack(&mut rng) {
            let bytes = trace(&mut rng, stack.clone());
            let run = start_of_run(&mut rng);
            stopped += u64::from(replay_both(&mut stack, run, &bytes, noise).stopped != run.stopped);
        }
    }
    assert!(stopped > 1_000, "{stopped} replays stop");
}

/// So many records of each trace that is timed: request by request, and replayed with just the fuel for it.
#[test]
fn the_traces_that_are_timed() {
    for sort in &SORTS {
        let trace = sort.trace(1_000);
        let (_, mut stack) = Reading::open(1 << 19, 1_000, vec![5; 4_000], vec![6; 1 << 16]);
        let mut replayed = stack.clone();
        for at in (0..trace.bytes.len()).step_by(RECORD_BYTES) {
            let q = read_record(&trace.bytes, at as u64).expect("a lawful record");
            assert!(ask_both(&mut stack, &q, at as u64).accepted(), "{} refuses {q:?}", sort.name);
        }
        let run = Replay {
            fuel: trace.cost,
            ..Replay::default()
        };
        let run = replay_both(&mut replayed, run, &trace.bytes, 1);
        assert_eq!((run.spent, run.stopped, &replayed), (trace.cost, None, &stack), "{}", sort.name);
    }
}
