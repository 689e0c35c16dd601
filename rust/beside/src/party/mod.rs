//! The parties that are compared with the reading, step by step.

#[cfg(target_arch = "x86_64")]
pub mod arguments;
#[cfg(target_arch = "x86_64")]
pub mod convert;
#[cfg(target_arch = "x86_64")]
mod ours;
#[cfg(target_arch = "x86_64")]
mod place;
mod rust;
mod table;

pub use self::{
    rust::Rust,
    table::{Memory, Table},
};

use crate::case::{Opening, Step, Task};
use crate::plain::{Answer, Replay, Request};
use crate::reading::Reading;

/// What came of a task on trace bytes.
#[derive(Debug, PartialEq, Eq)]
pub enum Traced {
    /// The request read; none is 10.
    Read(Option<Request>),
    /// The answer, and the bytes after it.
    Wrote(u64, Vec<u8>),
    Ran(Replay),
}

/// Somebody who takes the same steps as the reading.
pub trait Party {
    fn name(&self) -> &'static str;

    /// Takes a step that is not on trace bytes, and answers. An error tells what should not be.
    fn take(&mut self, step: &Step) -> Result<Answer, String>;

    /// Does a task on trace bytes.
    fn trace(&mut self, task: &Task, bytes: &[u8]) -> Result<Traced, String>;

    /// What of the state, the words and the cells is not as the reading has it.
    fn differs(&self, reading: &Reading) -> Option<String>;

    /// Another one in the same state.
    fn copy(&self) -> Box<dyn Party>;

    /// What else of its own decides over its next steps, for telling two of them apart.
    fn own_state(&self) -> Vec<u64>;
}

/// A party that has opened, or the number that it refused with.
pub type Opened = Result<Box<dyn Party>, u64>;

/// All parties of this build, opened over the same limits and buffers.
pub fn all(opening: &Opening) -> Vec<(&'static str, Opened)> {
    let rust = (Rust::NAME, Rust::open(opening));
    #[cfg(target_arch = "x86_64")]
    return ours::Face::ALL
        .into_iter()
        .map(|face| (face.name(), ours::Ours::open(face, opening)))
        .chain([rust])
        .collect();
    #[cfg(not(target_arch = "x86_64"))]
    return vec![rust];
}
