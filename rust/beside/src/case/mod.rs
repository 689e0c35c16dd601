//! A case: how a stack comes to be, and steps on it one after another. As text it can be printed, pasted back and shrunk.

mod numbers;
mod rows;

pub use self::rows::{Row, parse, text};

use crate::plain::{HostFrame, Regs, Replay, Request, State, Straight};
use crate::rng::mix;

/// How many words a frame takes, as the openings count them.
pub const FRAME_WORDS: u64 = cattlecleat::FRAME_WORDS as u64;

/// Something done to a stack.
#[derive(Clone, Debug, PartialEq, Eq)]
pub enum Step {
    Ask(Request),
    Registers(Regs),
    /// A host part is asked for; where there is a cell at that index of it, a host writes it.
    Part {
        frame: HostFrame,
        write: Option<(u64, u64)>,
    },
    Trace(Task, Vec<u8>),
}

/// Something done with trace bytes.
#[derive(Clone, Copy, Debug, PartialEq, Eq)]
pub enum Task {
    /// Reads the record at a place.
    Read(u64),
    /// Writes the record that a struct spells at a place.
    Write(u64, Straight),
    /// Replays the whole trace on the stack.
    Replay(Replay),
}

/// Limits and lent lengths to open with, and what to fill the buffers from.
#[derive(Clone, Copy, Debug, PartialEq, Eq)]
pub struct Opening {
    pub bytes: u64,
    pub depth: u64,
    pub words: u64,
    pub cells: u64,
    pub fill: u64,
}

impl Opening {
    /// The lent buffers: no two cells alike, so that every one touched or not touched shows.
    pub fn buffers(&self) -> (Vec<u64>, Vec<u64>) {
        let filled = |count: u64, salt: u64| (0..count).map(|i| mix(self.fill ^ salt ^ i)).collect();
        (filled(self.words, 1 << 40), filled(self.cells, 1 << 41))
    }
}

/// How a stack comes to be.
#[derive(Clone, Debug, PartialEq, Eq)]
pub enum Start {
    Open(Opening),
    /// Any state over any buffers, sound or not.
    Given {
        state: State,
        words: Vec<u64>,
        cells: Vec<u64>,
    },
}

#[derive(Clone, Debug, PartialEq, Eq)]
pub struct Case {
    pub start: Start,
    pub steps: Vec<Step>,
}
