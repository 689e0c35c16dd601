//! A state of the archive's shape with the buffers lent to it, as ours and C by hand have it.

use super::side::{End, Sums};
use super::trace::Trace;
use super::{BYTES, CELLS, DEPTH};
use crate::reading::RECORD_BYTES;
use cattlecleat::{FRAME_WORDS, raw};

pub struct Lent {
    pub state: raw::State,
    pub words: Vec<u64>,
    pub cells: Vec<u64>,
    /// As it was opened: a reset is no part of what is timed.
    opened: raw::State,
}

impl Lent {
    pub fn open() -> Result<Self, String> {
        let (words, cells) = (vec![0; FRAME_WORDS * DEPTH], vec![0; CELLS]);
        let answer = raw::open(BYTES, DEPTH, &words, &cells);
        accepted(answer.number)?;
        Ok(Self {
            state: answer.state,
            words,
            cells,
            opened: answer.state,
        })
    }

    pub fn reset(&mut self) {
        self.state = self.opened;
    }

    pub fn end(&self, sums: Option<Sums>) -> End {
        End {
            count: self.state.count,
            len: self.state.len,
            sums,
        }
    }
}

/// The requests of a trace, read by ours.
pub fn requests(trace: &Trace) -> Result<Vec<raw::Request>, String> {
    let places = (0..trace.bytes.len()).step_by(RECORD_BYTES);
    let read = |at| Some(raw::read_record(&trace.bytes, at)).filter(|read| read.number == 0);
    let requests: Option<Vec<raw::Request>> = places.map(|at| read(at).map(|read| read.request)).collect();
    requests.ok_or("ours cannot read a record".to_string())
}

/// Nothing that is timed may be refused.
#[inline]
pub fn accepted(number: u64) -> Result<(), String> {
    match number {
        0 | 1 => Ok(()),
        _ => Err(format!("refused with {number}")),
    }
}
