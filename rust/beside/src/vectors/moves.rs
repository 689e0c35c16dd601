//! What an entry can ask of a stack.

use crate::case::Step;
use crate::plain::{Answer, HostFrame, Regs, Request};
use crate::reading::Reading;

/// The registers that the walks store beside the integer.
const FREG32: f32 = 1.5;
const FREG64: f64 = -2.5;

#[derive(Clone, Copy, Debug, PartialEq, Eq)]
pub enum Move {
    Ask(Request),
    /// A register sync.
    Registers(Regs),
    Part(HostFrame),
}

impl Move {
    /// A register sync with this integer; the floats are always the same.
    pub fn integer(ireg: u64) -> Self {
        Self::Registers(Regs {
            ireg,
            freg32: FREG32.to_bits(),
            freg64: FREG64.to_bits(),
        })
    }

    /// The same as a step of the parties.
    pub fn step(&self) -> Step {
        match *self {
            Self::Ask(q) => Step::Ask(q),
            Self::Registers(regs) => Step::Registers(regs),
            Self::Part(frame) => Step::Part { frame, write: None },
        }
    }

    /// What the reading answers.
    pub fn read(&self, world: &mut Reading) -> Answer {
        match self {
            Self::Ask(q) => world.ask(q),
            Self::Registers(regs) => world.sync_registers(*regs),
            Self::Part(frame) => world.host_part(frame),
        }
    }
}
