//! The parts of the cells that a host is lent: its parameters to read, and the cells for its results to write.
use crate::raw::{self, HostFrame, Part};
use crate::{Refusal, Stack};

impl<W: AsRef<[u64]>, C: AsRef<[u64]>> Stack<W, C> {
    /// Where a host's cells lie. Refusals, in this order: 9, 11.
    fn host_part(&self, frame: HostFrame) -> Result<Part, Refusal> {
        let part = raw::host_part_in_place(&self.state, self.words.as_ref(), self.cells.as_ref(), &frame);
        Refusal::check(part.number).map(|()| part)
    }

    /// A host's parameters: the part of the cells that begins at the host's start. Empty where it has neither parameters nor results.
    ///
    /// Refusals, in this order: 9, 11.
    ///
    /// ```
    /// use cattlecleat::{FRAME_WORDS, HostArgs, Limits, PushArgs, Stack};
    ///
    /// let mut stack = Stack::open(Limits { depth: 3, bytes: 80 }, vec![0; 3 * FRAME_WORDS], vec![0; 10])?;
    /// stack.push_frame(PushArgs { callee: 100, slots: 4, ..PushArgs::default() })?;
    /// stack.set(2, 20)?;
    /// stack.set(3, 22)?;
    /// let call = stack.prepare_host_frame(HostArgs { caller: Some(101), head: 2, params: 2, results: 1 })?;
    ///
    /// let sum = stack.host_params(call.frame)?.iter().sum();
    /// stack.host_results(call.frame)?[0] = sum;
    /// assert_eq!(stack.cells()[2], 42);
    /// # Ok::<(), cattlecleat::Refusal>(())
    /// ```
    pub fn host_params(&self, frame: HostFrame) -> Result<&[u64], Refusal> {
        let part = self.host_part(frame)?;
        Ok(&self.cells.as_ref()[part.offset..part.offset + part.params])
    }
}

impl<W: AsRef<[u64]>, C: AsRef<[u64]> + AsMut<[u64]>> Stack<W, C> {
    /// The cells for a host's results: from its start to its end, the parameters among them.
    ///
    /// Refusals, in this order: 9, 11.
    pub fn host_results(&mut self, frame: HostFrame) -> Result<&mut [u64], Refusal> {
        let part = self.host_part(frame)?;
        Ok(&mut self.cells.as_mut()[part.offset..part.offset + part.results])
    }
}
