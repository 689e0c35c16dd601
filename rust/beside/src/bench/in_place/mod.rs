//! A function for each request, with the state in place: ours, or C by hand in the same shapes.

mod asked;
mod ours;

pub use self::ours::Ours;

use self::asked::Asked;
use super::lent::{Lent, accepted, requests};
use super::side::{End, Side, Sums};
use super::trace::Trace;
use cattlecleat::raw::{Frame, Host, Hosted, Offset, Push, Replace, ReturnHost, Returned, State};
use std::marker::PhantomData;

/// The functions of the requests of a call.
pub trait Face {
    fn push_frame(s: &mut State, words: &mut [u64], cells: &mut [u64], q: &Push) -> Offset;

    fn pop_frame(s: &mut State, words: &[u64], cells: &[u64], instance: u64) -> Frame;

    fn replace_frame(s: &mut State, words: &mut [u64], cells: &mut [u64], q: &Replace) -> Offset;

    fn prepare_host_frame(s: &mut State, words: &mut [u64], cells: &mut [u64], q: &Host) -> Hosted;

    fn return_prepare_host_frame(s: &mut State, words: &[u64], cells: &mut [u64], q: &ReturnHost) -> Returned;
}

pub struct InPlace<F> {
    lent: Lent,
    requests: Vec<Asked>,
    face: PhantomData<F>,
}

impl<F: Face> InPlace<F> {
    pub fn open() -> Result<Self, String> {
        Ok(Self {
            lent: Lent::open()?,
            requests: Vec::new(),
            face: PhantomData,
        })
    }
}

impl<F: Face> Side for InPlace<F> {
    fn load(&mut self, trace: &Trace) -> Result<(), String> {
        self.requests = requests(trace)?.iter().map(Asked::of).collect::<Result<_, _>>()?;
        Ok(())
    }

    fn reset(&mut self) {
        self.lent.reset();
    }

    fn run(&mut self, _: &Trace) -> Result<End, String> {
        let Lent { state, words, cells, .. } = &mut self.lent;
        let mut sums = Sums::default();
        for request in &self.requests {
            let number = request.ask::<F>(state, words, cells, &mut sums);
            accepted(number)?;
        }
        Ok(self.lent.end(Some(sums)))
    }
}
