//! A trace in blocks of one size, a call for each, and its end: ours.

use super::lent::{Lent, accepted};
use super::replayed::{begun, ended};
use super::side::{End, Side};
use super::trace::Trace;
use cattlecleat::raw;

pub struct Blocks {
    lent: Lent,
    size: usize,
}

impl Blocks {
    /// Blocks of so many bytes; the last one may be shorter.
    pub fn open(size: usize) -> Result<Self, String> {
        Ok(Self { lent: Lent::open()?, size })
    }
}

impl Side for Blocks {
    fn reset(&mut self) {
        self.lent.reset();
    }

    fn run(&mut self, trace: &Trace) -> Result<End, String> {
        let run = begun(&self.lent, trace);
        let mut tape = raw::Tape {
            run,
            ..raw::Tape::default()
        };
        for block in trace.bytes.chunks(self.size) {
            let fed = raw::feed(tape, &mut self.lent.words, &mut self.lent.cells, block);
            accepted(fed.number)?;
            tape = fed.tape;
        }
        let tape = raw::finish(tape, &mut self.lent.words, &mut self.lent.cells);
        ended(&mut self.lent, &tape.run, trace)
    }
}
