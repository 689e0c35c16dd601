//! Tapes that no block leads to: any bytes, any number of them, any flags, stopped or not.

use super::super::count::Compared;
use super::pair::{Pair, Whole};
use super::six::Six;
use crate::party::convert::{raw_state, raw_tape};
use crate::plain::{Flagged, said};
use crate::reading::{RECORD_BYTES, Reading, StraightTape};
use crate::rng::Rng;

const HELD: [u64; 7] = [0, 1, 39, 40, 41, 80, u64::MAX];
const END_FLAGS: [u64; 4] = [0, 1, 2, u64::MAX];
const STOPS: [Flagged; 5] = [[0, 0], [0, u64::MAX], [1, 0], [2, 5], [u64::MAX, u64::MAX]];
/// Number, fuel and what is spent of it: some of it, all of it, and more than there is; and where numbers end.
const RUNS: [[u64; 3]; 4] = [[0, 9, 0], [7, 4, 4], [1, 2, 30], [u64::MAX, u64::MAX, u64::MAX - 4]];
/// Current instances: none, with any number beside it, and one.
const CURRENTS: [Flagged; 3] = [[0, 0], [0, 9], [u64::MAX, 1]];
/// Blocks of so many bytes.
const BLOCKS: [usize; 6] = [0, 1, 39, 40, 41, 90];

pub fn compared() -> Compared {
    let (six, mut rng) = (Six::new(), Rng::new(3));
    let tapes = HELD.iter().flat_map(|held| END_FLAGS.map(|flag| (*held, flag)));
    let tapes = tapes.flat_map(|(held, end_flag)| STOPS.map(|stop| (held, end_flag, stop)));
    let tapes = tapes.flat_map(|(held, end_flag, stop)| RUNS.map(|run| tape(run, stop, held, end_flag)));
    tapes.map(|tape| around(&six, tape, &mut rng)).sum()
}

fn tape([number, fuel, spent]: [u64; 3], stop: Flagged, held: u64, end_flag: u64) -> StraightTape {
    StraightTape {
        number,
        fuel,
        spent,
        stop,
        kept: [0; RECORD_BYTES],
        held,
        end_flag,
    }
}

/// With the bytes of a good record and with any, and with each current instance.
fn around(six: &Six, tape: StraightTape, rng: &mut Rng) -> Compared {
    let mut compared = 0;
    let good = six.trace[..RECORD_BYTES].try_into().expect("a whole record");
    for kept in [good, [0; RECORD_BYTES], std::array::from_fn(|_| rng.next() as u8)] {
        for current in CURRENTS {
            compared += called(six, &StraightTape { kept, ..tape }, current)?;
        }
    }
    Ok(compared)
}

/// An end alone; and two blocks, which go on where the good record ends that is held, with an end behind them.
fn called(six: &Six, tape: &StraightTape, current: Flagged) -> Compared {
    let mut stack = six.stack.clone();
    stack.state.current = said(current);
    let next = &six.trace[tape.tape().held.len()..];
    let mut compared = ended(&stack, tape, current, &[])?;
    for size in BLOCKS {
        let (first, second) = next.split_at(size);
        compared += ended(&stack, tape, current, &[first, second])?;
    }
    Ok(compared)
}

/// All of it is what comes at once of the bytes held and the blocks; or of nothing, where no byte moves the tape.
fn ended(stack: &Reading, tape: &StraightTape, current: Flagged, blocks: &[&[u8]]) -> Compared {
    let said = tape.tape();
    let bytes = if said.is_over() {
        Vec::new()
    } else {
        [said.held, blocks.concat()].concat()
    };
    let whole = Whole::of(stack, &said.run, &bytes)?;
    let mut state = raw_state(&stack.state, 0);
    [state.current_flag, state.current] = current;
    let mut pair = Pair::given(stack, raw_tape(tape, state));
    for block in blocks {
        pair.feed(block)?;
    }
    pair.finish()?;
    pair.ends_as(&whole)?;
    Ok(pair.compared)
}
