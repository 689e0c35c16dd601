//! A trace that arrives in blocks, replayed as it comes, and written to as a file is.
use crate::raw::{self, Run};
use crate::{Refusal, Replayed, Stack};
use std::io;

/// A replay of a trace that arrives in blocks of any length, cut anywhere. Between two blocks it keeps the bytes of an unfinished record.
/// Whatever the cuts, the blocks and an end come to what [`Stack::replay`] makes of the whole trace.
///
/// ```
/// use cattlecleat::{FRAME_WORDS, Limits, PushArgs, Refusal, Replayed, Request, Stack, Tape};
///
/// let first = PushArgs { callee: 100, locals: 2, slots: 4, instance: Some(1), ..PushArgs::default() };
/// let trace = [Request::Push(first), Request::Set(1, 9)].map(Request::to_record).concat();
/// let stack = Stack::open(Limits { depth: 3, bytes: 80 }, vec![0; 3 * FRAME_WORDS], vec![0; 10])?;
///
/// let mut tape = Tape::new(stack, 1000);
/// tape.feed(&trace[..50])?;
/// assert_eq!(tape.replayed(), Replayed { records: 1, spent: 3, stopped: None });
/// assert_eq!((tape.held(), tape.stack().depth()), (&trace[40..50], 1));
/// tape.feed(&trace[50..])?;
/// assert_eq!(tape.finish(), Replayed { records: 2, spent: 4, stopped: None });
///
/// let mut stack = tape.into_stack();
/// assert_eq!(stack.cells(), [0, 9, 0, 0]);
/// assert_eq!(stack.set(0, 8), Ok(0));
/// # Ok::<(), Refusal>(())
/// ```
///
/// It is also an [`io::Write`], so that [`io::copy`] replays a file, or whatever a drive hands out:
///
/// ```
/// use cattlecleat::{FRAME_WORDS, Limits, PushArgs, Replayed, Request, Stack, Tape};
/// use std::io::{self, Read};
///
/// /// Hands out seven bytes at a time.
/// struct Drive<'a>(&'a [u8]);
///
/// impl Read for Drive<'_> {
///     fn read(&mut self, buf: &mut [u8]) -> io::Result<usize> {
///         let most = buf.len().min(7);
///         self.0.read(&mut buf[..most])
///     }
/// }
///
/// let first = PushArgs { callee: 100, locals: 2, slots: 4, instance: Some(1), ..PushArgs::default() };
/// let trace = [Request::Push(first), Request::Set(1, 9)].map(Request::to_record).concat();
/// let stack = Stack::open(Limits { depth: 3, bytes: 80 }, vec![0; 3 * FRAME_WORDS], vec![0; 10]).map_err(io::Error::other)?;
///
/// let mut tape = Tape::new(stack, 1000);
/// assert_eq!(io::copy(&mut Drive(&trace), &mut tape)?, 80);
/// assert_eq!(tape.finish(), Replayed { records: 2, spent: 4, stopped: None });
/// # Ok::<(), io::Error>(())
/// ```
///
/// Once the fuel left did not cover a record, blocks and ends only say that stop again: [`replayed`](Self::replayed) has it.
#[derive(Clone, Debug)]
pub struct Tape<W, C = W> {
    stack: Stack<W, C>,
    /// Its state is the stack's.
    tape: raw::Tape,
}

impl<W, C> Tape<W, C> {
    /// A replay on this stack, with so much fuel, of which nothing has come yet.
    pub fn new(stack: Stack<W, C>, fuel: u64) -> Self {
        let run = Run {
            state: stack.state,
            fuel,
            ..Run::default()
        };
        let tape = raw::Tape {
            run,
            ..raw::Tape::default()
        };
        Self { stack, tape }
    }

    /// What came of the replay so far. A record that is unfinished does not count, before the end.
    pub fn replayed(&self) -> Replayed {
        Replayed::of(&self.tape.run)
    }

    /// The bytes of the unfinished record, at most 39. None after a stop or an end.
    pub fn held(&self) -> &[u8] {
        &self.tape.kept[..self.tape.held]
    }

    /// Whether the end was told: by a [`finish`](Self::finish) that no stop came before.
    pub fn is_ended(&self) -> bool {
        self.tape.end_flag != 0
    }

    /// The stack as the records so far have left it.
    pub fn stack(&self) -> &Stack<W, C> {
        &self.stack
    }

    /// The stack back, to go on with; bytes held are dropped.
    pub fn into_stack(self) -> Stack<W, C> {
        self.stack
    }

    fn moved_to(&mut self, tape: raw::Tape) {
        self.stack.state = tape.run.state;
        self.tape = tape;
    }
}

impl<W: AsMut<[u64]>, C: AsMut<[u64]>> Tape<W, C> {
    /// Replays the next block: every record that is whole with it. An empty block changes nothing. [`Refusal::Ended`] for another one after
    /// an end without a stop; then nothing changes.
    ///
    /// ```
    /// use cattlecleat::{FRAME_WORDS, Limits, Refusal, Replayed, Request, Stack, Tape};
    ///
    /// let stack = Stack::open(Limits { depth: 3, bytes: 80 }, vec![0; 3 * FRAME_WORDS], vec![0; 10])?;
    /// let mut tape = Tape::new(stack, 1000);
    /// let record = Request::Reset.to_record();
    /// tape.feed(&record[..39])?;
    /// assert_eq!(tape.replayed().records, 0);
    /// tape.feed(&record[39..])?;
    /// assert_eq!(tape.finish(), Replayed { records: 1, spent: 1, stopped: None });
    /// assert_eq!((tape.feed(&[]), tape.feed(&record)), (Ok(()), Err(Refusal::Ended)));
    /// # Ok::<(), Refusal>(())
    /// ```
    pub fn feed(&mut self, block: &[u8]) -> Result<(), Refusal> {
        let fed = raw::feed(self.tape, self.stack.words.as_mut(), self.stack.cells.as_mut(), block);
        Refusal::check(fed.number)?;
        self.moved_to(fed.tape);
        Ok(())
    }

    /// Tells that the trace has ended, and what came of it: bytes held are a short record, which is a bad one. A second end, and one after
    /// a stop, add nothing.
    ///
    /// ```
    /// use cattlecleat::{FRAME_WORDS, Limits, Replayed, Request, Stack, Tape};
    ///
    /// let stack = Stack::open(Limits { depth: 3, bytes: 80 }, vec![0; 3 * FRAME_WORDS], vec![0; 10])?;
    /// let mut tape = Tape::new(stack.clone(), 1);
    /// tape.feed(&[8])?;
    /// assert_eq!([tape.finish(), tape.finish()], [Replayed { records: 1, spent: 1, stopped: None }; 2]);
    ///
    /// let mut poor = Tape::new(stack, 0);
    /// poor.feed(&[8])?;    // no stop yet: a record may come of it
    /// assert_eq!(poor.replayed().stopped, None);
    /// assert_eq!([poor.finish(), poor.finish()], [Replayed { records: 0, spent: 0, stopped: Some(1) }; 2]);
    /// # Ok::<(), cattlecleat::Refusal>(())
    /// ```
    pub fn finish(&mut self) -> Replayed {
        let tape = raw::finish(self.tape, self.stack.words.as_mut(), self.stack.cells.as_mut());
        self.moved_to(tape);
        self.replayed()
    }
}

impl<W: AsMut<[u64]>, C: AsMut<[u64]>> io::Write for Tape<W, C> {
    /// Feeds all of it, as a block: also after a stop, which it only says again. [`Refusal::Ended`] comes inside an error of the kind
    /// [`InvalidInput`](io::ErrorKind::InvalidInput).
    fn write(&mut self, buf: &[u8]) -> io::Result<usize> {
        let fed = self.feed(buf);
        fed.map_err(|refusal| io::Error::new(io::ErrorKind::InvalidInput, refusal))?;
        Ok(buf.len())
    }

    /// Does nothing, and tells no end: whole records are replayed as soon as they come.
    fn flush(&mut self) -> io::Result<()> {
        Ok(())
    }
}
