//! A tape that says the same, with any numbers in all that must not matter.

use crate::party::convert::flagged;
use crate::plain::said;
use crate::rng::Rng;
use cattlecleat::raw;

/// More than 39 bytes held count as 39.
const ALL_HELD: [usize; 5] = [39, 40, 41, 80, usize::MAX];

pub fn noisy(tape: raw::Tape, rng: &mut Rng) -> raw::Tape {
    let raw::Tape { run, kept, held, end_flag } = tape;
    let (current_flag, current) = flagged(said([run.state.current_flag, run.state.current]), any(rng));
    let (stop_flag, cost) = flagged(said([run.stop_flag, run.cost]), any(rng));
    let state = raw::State {
        current_flag,
        current,
        ..run.state
    };
    let run = raw::Run {
        state,
        stop_flag,
        cost,
        ..run
    };
    let ended = raw::Tape {
        run,
        kept,
        held,
        end_flag: flagged((end_flag != 0).then_some(1), any(rng)).0,
    };
    noisy_bytes(ended, rng)
}

/// Behind the bytes held; and all of them once the run has stopped or the end was told.
fn noisy_bytes(tape: raw::Tape, rng: &mut Rng) -> raw::Tape {
    let raw::Tape { mut kept, held, .. } = tape;
    let over = tape.run.stop_flag != 0 || tape.end_flag != 0;
    let looked_at = if over { 0 } else { held.min(ALL_HELD[0]) };
    kept[looked_at..].fill_with(|| rng.next() as u8);
    let held = match held {
        _ if over => rng.next() as usize,
        39.. => rng.pick(&ALL_HELD),
        held => held,
    };
    raw::Tape { kept, held, ..tape }
}

/// Small as often as not.
fn any(rng: &mut Rng) -> u64 {
    if rng.once_in(2) { rng.below(4) } else { rng.next() }
}
