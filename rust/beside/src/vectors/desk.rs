//! All that a line may change: the stack with what is lent to it, how its current instance is told, the trace, and the tape.

use crate::plain::Flagged;
use crate::reading::{RECORD_BYTES, Reading, StraightTape};

/// The tape that a file and every opening begin with.
pub const NO_TAPE: StraightTape = StraightTape {
    number: 0,
    fuel: 0,
    spent: 0,
    stop: [0, 0],
    kept: [0; RECORD_BYTES],
    held: 0,
    end_flag: 0,
};

#[derive(Clone)]
pub struct Desk {
    pub world: Reading,
    pub current: Flagged,
    pub trace: Vec<u8>,
    /// Its run has the state of the stack.
    pub tape: StraightTape,
}
