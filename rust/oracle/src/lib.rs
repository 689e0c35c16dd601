//! The call stack of wasmi 2.0.0 as an oracle: its own state.rs, unchanged, driven by document 01's requests.
//!
//! The driver decides refusals by document 01. Whatever an accepted request hands back or leaves behind is read from the Rust's own state.

extern crate alloc;

pub mod driver;
pub mod engine;
pub mod leaves;
#[cfg(test)]
mod sha256;
mod stand_ins;

pub use self::driver::{Answer, Host, Limits, Oracle, Part, Regs, Request};
pub use self::stand_ins::errors::{Error, Func, TrapCode};
pub use self::stand_ins::{instance, ir};

/// The crate's own `core`, of which state.rs names one type.
pub mod core {
    pub use crate::stand_ins::errors::RawRef;
}

/// Whether the Rust's debug assertions are in this build: the comparison wants them, the benchmark does not.
pub const DEBUG_ASSERTIONS: bool = cfg!(debug_assertions);
