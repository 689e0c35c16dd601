//! Errors, traps and outcomes: what state.rs hands on without looking inside.

use crate::ir::SlotSpan;

/// A trap of the stack. The other traps of wasmi do not come from state.rs.
#[derive(Debug, Copy, Clone, PartialEq, Eq)]
pub enum TrapCode {
    StackOverflow,
    OutOfSystemMemory,
}

/// Any error of the host or of the machine.
#[derive(Debug)]
pub struct Error;

/// The host function that an error came from.
#[derive(Debug)]
pub struct Func;

/// A reference as it lies in a register.
#[derive(Debug, Copy, Clone)]
pub struct RawRef(u32);

impl From<u32> for RawRef {
    fn from(value: u32) -> Self {
        Self(value)
    }
}

impl From<RawRef> for u32 {
    fn from(value: RawRef) -> Self {
        value.0
    }
}

/// An error of a called host.
#[derive(Debug)]
pub struct ResumableHostTrapError;

impl ResumableHostTrapError {
    pub fn new(_error: Error, _func: Func, _results: SlotSpan) -> Self {
        Self
    }
}

/// Too little fuel, and how much is needed.
#[derive(Debug)]
pub struct ResumableOutOfFuelError {
    required_fuel: u64,
}

impl ResumableOutOfFuelError {
    pub fn new(required_fuel: u64) -> Self {
        Self { required_fuel }
    }

    pub fn required_fuel(&self) -> u64 {
        self.required_fuel
    }
}

/// Why an execution halted, as the executor hands it on.
#[derive(Debug)]
pub enum ExecutionOutcome {
    Host(ResumableHostTrapError),
    OutOfFuel(ResumableOutOfFuelError),
    Error(Error),
}

impl From<ResumableHostTrapError> for ExecutionOutcome {
    fn from(error: ResumableHostTrapError) -> Self {
        Self::Host(error)
    }
}

impl From<ResumableOutOfFuelError> for ExecutionOutcome {
    fn from(error: ResumableOutOfFuelError) -> Self {
        Self::OutOfFuel(error)
    }
}

impl From<Error> for ExecutionOutcome {
    fn from(error: Error) -> Self {
        Self::Error(error)
    }
}

/// Whether the interpreter goes on.
#[derive(Debug)]
pub enum Control<C, B> {
    Continue(C),
    Break(B),
}
