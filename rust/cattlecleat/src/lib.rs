//! Cattlecleat: a proved call stack for a Wasm interpreter.
//!
//! The stack keeps frames and cells in two buffers of `u64` that its host lends or gives it. Every request gets an answer, on any state and
//! any content of the buffers; a [`Refusal`] has its number in document 01 or 02 and changes nothing; and whatever happens in between, a
//! return finds its caller as it was. That is proved of the archive which this crate links, not of the few lines of Rust around it. The
//! archive is for x86-64 with the System V calling convention.
//!
//! Document 01's example, two calls with two instances and three returns:
//!
//! ```
//! use cattlecleat::{FRAME_WORDS, Limits, Popped, PushArgs, Refusal, Stack};
//!
//! let mut stack = Stack::open(Limits { depth: 64, bytes: 32_768 }, vec![0; 64 * FRAME_WORDS], vec![0; 4096])?;
//!
//! let first = PushArgs { callee: 100, locals: 2, slots: 4, instance: Some(1), ..PushArgs::default() };
//! assert_eq!(stack.push_frame(first), Ok(0));
//! assert_eq!((stack.depth(), stack.len()), (1, 4));
//!
//! let second = PushArgs { caller: Some(101), callee: 200, head: 2, params: 1, locals: 2, slots: 3, instance: Some(2) };
//! assert_eq!(stack.push_frame(second), Ok(2));
//! assert_eq!((stack.depth(), stack.len(), stack.current()), (2, 5, Some(2)));
//!
//! assert_eq!(stack.pop_frame(2), Ok(Popped::Returned { ip: 101, start: 0, instance: 1 }));
//! assert_eq!(stack.pop_frame(2), Ok(Popped::Last));
//! assert_eq!(stack.pop_frame(2), Err(Refusal::NoFrame));
//! assert_eq!((stack.depth(), stack.len(), stack.current()), (0, 5, Some(1)));
//! # Ok::<(), Refusal>(())
//! ```
//!
//! [`Stack`] has one method per request; [`Trace`] and [`Stack::replay`] read and run recorded ones, and [`Tape`] runs those that arrive in
//! blocks, as [`std::io::copy`] hands them on from a file. [`Register`], [`align_relative_to`], [`DoneSlot`] and the methods of
//! [`Registers`] are the leaves beside it, and [`raw`] is the plain layer below.
#![deny(missing_docs)]

mod calls;
mod done;
mod hosts;
mod in_place;
mod plain;
pub mod raw;
mod refusal;
mod register;
mod request;
mod stack;
mod tape;
mod trace;

pub use calls::{HostCall, Popped, Restored, ReturnHostCall};
pub use done::{DoneReason, DoneSlot};
pub use raw::{HostFrame, Registers, State};
pub use refusal::Refusal;
pub use register::{Register, align_relative_to};
pub use request::{HostArgs, PushArgs, ReplaceArgs, Request, ReturnHostArgs};
pub use stack::{FRAME_WORDS, Frame, Limits, Stack};
pub use tape::Tape;
pub use trace::{RECORD_BYTES, Replayed, Trace, read_record, write_record};
