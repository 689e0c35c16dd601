//! The done slot: why an execution halted.
use crate::Refusal;
use crate::raw::{self, Reason};

/// Why an execution halted.
#[derive(Clone, Copy, Debug, PartialEq, Eq, Hash)]
pub enum DoneReason {
    /// It returned, with its results at this offset.
    Returned(u64),
    /// A host's function failed.
    HostError,
    /// It ran out of fuel, and needs this amount.
    OutOfFuel(u64),
    /// Any other error.
    Error,
}

impl From<DoneReason> for Reason {
    fn from(reason: DoneReason) -> Self {
        let (kind, amount) = match reason {
            DoneReason::Returned(offset) => (1, offset),
            DoneReason::HostError => (2, 0),
            DoneReason::OutOfFuel(needed) => (3, needed),
            DoneReason::Error => (4, 0),
        };
        Self { kind, amount }
    }
}

impl From<Reason> for DoneReason {
    /// As the archive reads it: a kind that is none of the first three is an error.
    fn from(reason: Reason) -> Self {
        match reason.kind {
            1 => Self::Returned(reason.amount),
            2 => Self::HostError,
            3 => Self::OutOfFuel(reason.amount),
            _ => Self::Error,
        }
    }
}

/// A slot for at most one reason.
///
/// ```
/// use cattlecleat::{DoneReason, DoneSlot, Refusal};
///
/// let mut slot = DoneSlot::default();
/// assert_eq!(slot.take_done_reason(), Err(Refusal::NothingToTake));
/// slot.done_with(DoneReason::OutOfFuel(7))?;
/// assert_eq!(slot.done_with(DoneReason::Error), Err(Refusal::AlreadyFilled));
/// assert_eq!(slot.take_done_reason(), Ok(DoneReason::OutOfFuel(7)));
/// # Ok::<(), Refusal>(())
/// ```
#[derive(Clone, Copy, Debug, Default, PartialEq, Eq)]
pub struct DoneSlot(Reason);

impl DoneSlot {
    /// Halts with a reason. [`Refusal::AlreadyFilled`] where the slot holds one already: that one stays.
    pub fn done_with(&mut self, reason: DoneReason) -> Result<(), Refusal> {
        let done = raw::done_with(self.0, reason.into());
        self.0 = done.slot;
        Refusal::check(done.number)
    }

    /// Takes the reason out. [`Refusal::NothingToTake`] where there is none.
    pub fn take_done_reason(&mut self) -> Result<DoneReason, Refusal> {
        let done = raw::take_done_reason(self.0);
        self.0 = done.slot;
        Refusal::check(done.number).map(|()| done.reason.into())
    }
}
