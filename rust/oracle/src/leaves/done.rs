//! The done slot of the Rust's own `ExecContext`.

use super::unless_it_panics;
use crate::engine::executor::{
    Cell,
    handler::state::{DoneReason, ExecContext, Sp},
};
use crate::ir::{Slot, SlotSpan};
use crate::{Error, Func};
use std::ptr;

/// Why an execution halted.
#[derive(Debug, Clone, Copy, PartialEq, Eq)]
pub enum Reason {
    Returned(u64),
    HostError,
    OutOfFuel(u64),
    Error,
}

/// At most one reason.
#[derive(Default)]
pub struct DoneSlot {
    context: ExecContext,
}

impl DoneSlot {
    /// Fills the slot; `false` where the Rust panics because it is filled, and the old reason stays.
    pub fn done_with(&mut self, reason: Reason) -> bool {
        unless_it_panics(|| self.context.done_with(|| rust_reason(reason))).is_some()
    }

    /// Takes the reason; nothing where the Rust panics because there is none.
    pub fn take_done_reason(&mut self) -> Option<Reason> {
        unless_it_panics(|| self.context.take_done_reason()).map(plain_reason)
    }
}

/// An offset stands as the address of the `Sp`, which is never followed.
fn rust_reason(reason: Reason) -> DoneReason {
    match reason {
        Reason::Returned(offset) => DoneReason::Return(Sp::new(ptr::without_provenance_mut::<Cell>(offset as usize))),
        Reason::HostError => DoneReason::host_error(Error, Func, SlotSpan::new(Slot::from(0))),
        Reason::OutOfFuel(amount) => DoneReason::out_of_fuel(amount),
        Reason::Error => DoneReason::error(Error),
    }
}

fn plain_reason(reason: DoneReason) -> Reason {
    match reason {
        DoneReason::Return(sp) => Reason::Returned(sp.number()),
        DoneReason::Host(_) => Reason::HostError,
        DoneReason::OutOfFuel(error) => Reason::OutOfFuel(error.required_fuel()),
        DoneReason::Error(_) => Reason::Error,
    }
}

#[cfg(test)]
mod tests {
    use super::{DoneSlot, Reason};

    #[test]
    fn one_reason_at_most() {
        for reason in [Reason::Returned(9), Reason::HostError, Reason::OutOfFuel(u64::MAX), Reason::Error] {
            let mut slot = DoneSlot::default();
            assert_eq!(slot.take_done_reason(), None);
            assert!(slot.done_with(reason));
            assert!(!slot.done_with(Reason::OutOfFuel(1)));
            assert_eq!(slot.take_done_reason(), Some(reason));
            assert_eq!(slot.take_done_reason(), None);
        }
    }
}
