//! One method per request of a stack, named as in the Rust module that this replaces, and what each hands back.
use crate::raw::{self, HostFrame};
use crate::{HostArgs, PushArgs, Refusal, Registers, ReplaceArgs, ReturnHostArgs, Stack};

/// Where a return leads.
#[derive(Clone, Copy, Debug, PartialEq, Eq, Hash)]
pub enum Popped {
    /// Answer 1: the last frame is gone. The current instance stays as it was.
    Last,
    /// Answer 0: the frame below is the top one now.
    Returned {
        /// Where it goes on.
        ip: u64,
        /// Where its cells begin.
        start: usize,
        /// The debt of the frame that went, or else the instance that the request gave.
        instance: u64,
    },
}

/// A host's frame is prepared.
#[derive(Clone, Copy, Debug, PartialEq, Eq)]
pub struct HostCall {
    /// The top start: where the caller's cells begin.
    pub start: usize,
    /// The host's frame, for [`Stack::host_params`] and [`Stack::host_results`].
    pub frame: HostFrame,
}

/// A frame is gone, and a host's frame is prepared in its place.
#[derive(Clone, Copy, Debug, PartialEq, Eq)]
pub struct ReturnHostCall {
    /// Where the return leads.
    pub popped: Popped,
    /// The host's frame, for [`Stack::host_params`] and [`Stack::host_results`]; zeros where it has neither parameters nor results.
    pub frame: HostFrame,
}

/// What is needed to go on in the top frame.
#[derive(Clone, Copy, Debug, PartialEq, Eq)]
pub struct Restored {
    /// Where it goes on.
    pub ip: u64,
    /// Where its cells begin.
    pub start: usize,
    /// The current instance.
    pub instance: u64,
    /// The registers, bit for bit.
    pub regs: Registers,
}

impl Popped {
    /// Where an accepted return leads, by the archive's numbers.
    #[inline]
    fn by(number: u64, ip: u64, start: usize, instance: u64) -> Self {
        match number {
            1 => Self::Last,
            _ => Self::Returned { ip, start, instance },
        }
    }
}

impl<W: AsRef<[u64]> + AsMut<[u64]>, C: AsRef<[u64]> + AsMut<[u64]>> Stack<W, C> {
    /// Asks for a request in plain form, and hands back all its numbers. Where it is refused, nothing has changed.
    #[inline]
    pub fn ask(&mut self, request: impl Into<raw::Request>) -> Result<raw::Answer, Refusal> {
        let answer = raw::ask(self.state, self.words.as_mut(), self.cells.as_mut(), request.into());
        self.state = answer.state;
        Refusal::check(answer.number).map(|()| answer)
    }

    /// Calls a function: the caller's ip is stored, the callee's frame begins at the top start plus the head, its locals behind the
    /// parameters are zeroed, and a named instance becomes current. Hands back the callee's start.
    ///
    /// Refusals, in this order: 9, 2 (depth), 4 or 6, 5, 2, 3.
    ///
    /// ```
    /// use cattlecleat::{FRAME_WORDS, Limits, PushArgs, Refusal, Stack};
    ///
    /// let mut stack = Stack::open(Limits { depth: 3, bytes: 80 }, vec![0; 3 * FRAME_WORDS], vec![0; 10])?;
    /// let first = PushArgs { callee: 100, locals: 2, slots: 4, instance: Some(1), ..PushArgs::default() };
    /// assert_eq!(stack.push_frame(first), Ok(0));
    /// let second = PushArgs { caller: Some(101), callee: 200, head: 4, slots: 7, ..PushArgs::default() };
    /// assert_eq!(stack.push_frame(second), Err(Refusal::Overflow));
    /// assert_eq!(stack.push_frame(PushArgs { slots: 6, ..second }), Ok(4));
    /// # Ok::<(), Refusal>(())
    /// ```
    #[inline]
    pub fn push_frame(&mut self, args: PushArgs) -> Result<usize, Refusal> {
        let answer = raw::push_frame(&mut self.state, self.words.as_mut(), self.cells.as_mut(), &args.into());
        Refusal::check(answer.number).map(|()| answer.offset)
    }

    /// Returns from the top frame: its debt, where it has one, becomes current again.
    ///
    /// Refusals, in this order: 9, 4.
    ///
    /// ```
    /// # use cattlecleat::{FRAME_WORDS, Limits, Popped, PushArgs, Stack};
    /// # let mut stack = Stack::open(Limits { depth: 3, bytes: 80 }, vec![0; 3 * FRAME_WORDS], vec![0; 10])?;
    /// stack.push_frame(PushArgs { callee: 100, slots: 4, instance: Some(1), ..PushArgs::default() })?;
    /// stack.push_frame(PushArgs { caller: Some(101), callee: 200, head: 2, slots: 3, instance: Some(2), ..PushArgs::default() })?;
    /// assert_eq!(stack.pop_frame(2), Ok(Popped::Returned { ip: 101, start: 0, instance: 1 }));
    /// assert_eq!(stack.pop_frame(1), Ok(Popped::Last));
    /// # Ok::<(), cattlecleat::Refusal>(())
    /// ```
    #[inline]
    pub fn pop_frame(&mut self, instance: u64) -> Result<Popped, Refusal> {
        let answer = raw::pop_frame(&mut self.state, self.words.as_ref(), self.cells.as_ref(), instance);
        Refusal::check(answer.number).map(|()| Popped::by(answer.number, answer.ip, answer.offset, answer.instance))
    }

    /// Makes a tail call: the callee takes over the top frame, and its parameters are copied from the head to the frame's start. Hands back
    /// that start.
    ///
    /// Refusals, in this order: 9, 4, 5, 2, 3, 7.
    ///
    /// ```
    /// # use cattlecleat::{FRAME_WORDS, Limits, PushArgs, ReplaceArgs, Stack};
    /// # let mut stack = Stack::open(Limits { depth: 3, bytes: 80 }, vec![0; 3 * FRAME_WORDS], vec![0; 10])?;
    /// stack.push_frame(PushArgs { callee: 100, slots: 4, ..PushArgs::default() })?;
    /// stack.cells_mut().copy_from_slice(&[5, 6, 7, 8]);
    /// stack.replace_frame(ReplaceArgs { callee: 200, head: 1, params: 2, locals: 3, slots: 4, ..ReplaceArgs::default() })?;
    /// assert_eq!(stack.cells(), [6, 7, 0, 8]);
    /// # Ok::<(), cattlecleat::Refusal>(())
    /// ```
    #[inline]
    pub fn replace_frame(&mut self, args: ReplaceArgs) -> Result<usize, Refusal> {
        let answer = raw::replace_frame(&mut self.state, self.words.as_mut(), self.cells.as_mut(), &args.into());
        Refusal::check(answer.number).map(|()| answer.offset)
    }

    /// Prepares the call of a host's function: a given ip is stored, and the cells reach to the end of the host's frame.
    ///
    /// Refusals, in this order: 9, 4, 2, 3.
    #[inline]
    pub fn prepare_host_frame(&mut self, args: HostArgs) -> Result<HostCall, Refusal> {
        let answer = raw::prepare_host_frame(&mut self.state, self.words.as_mut(), self.cells.as_mut(), &args.into());
        Refusal::check(answer.number).map(|()| HostCall {
            start: answer.offset,
            frame: answer.host,
        })
    }

    /// Prepares the tail call of a host's function: a return as by [`pop_frame`](Self::pop_frame), and the parameters are copied from the
    /// head to the start of the frame that goes.
    ///
    /// Refusals, in this order: 9, 4, 7, 2, 3.
    ///
    /// ```
    /// # use cattlecleat::{FRAME_WORDS, Limits, Popped, PushArgs, ReturnHostArgs, Stack};
    /// # let mut stack = Stack::open(Limits { depth: 3, bytes: 80 }, vec![0; 3 * FRAME_WORDS], vec![0; 10])?;
    /// stack.push_frame(PushArgs { callee: 100, slots: 4, ..PushArgs::default() })?;
    /// stack.set(3, 9)?;
    /// let call = stack.return_prepare_host_frame(ReturnHostArgs { head: 3, params: 1, results: 1, instance: 1 })?;
    /// assert_eq!(call.popped, Popped::Last);
    /// assert_eq!(stack.host_params(call.frame)?, [9]);
    /// # Ok::<(), cattlecleat::Refusal>(())
    /// ```
    #[inline]
    pub fn return_prepare_host_frame(&mut self, args: ReturnHostArgs) -> Result<ReturnHostCall, Refusal> {
        let answer = raw::return_prepare_host_frame(&mut self.state, self.words.as_ref(), self.cells.as_mut(), &args.into());
        Refusal::check(answer.number).map(|()| ReturnHostCall {
            popped: Popped::by(answer.number, answer.ip, answer.offset, answer.instance),
            frame: answer.host,
        })
    }

    /// Stores an ip in the top frame, and hands back its start.
    ///
    /// Refusals, in this order: 9, 4.
    #[inline]
    pub fn sync_ip(&mut self, ip: u64) -> Result<usize, Refusal> {
        let answer = raw::sync_ip(&self.state, self.words.as_mut(), self.cells.as_ref(), ip);
        Refusal::check(answer.number).map(|()| answer.offset)
    }

    /// What is needed to go on in the top frame. Nothing changes.
    ///
    /// Refusals, in this order: 9, 4, 8.
    ///
    /// ```
    /// # use cattlecleat::{FRAME_WORDS, Limits, PushArgs, Refusal, Registers, Stack};
    /// # let mut stack = Stack::open(Limits { depth: 3, bytes: 80 }, vec![0; 3 * FRAME_WORDS], vec![0; 10])?;
    /// stack.push_frame(PushArgs { callee: 100, slots: 4, instance: Some(1), ..PushArgs::default() })?;
    /// stack.sync_ip(104)?;
    /// stack.sync_regs(Registers { ireg: 7, freg32: -0.0, freg64: 0.5 })?;
    /// let top = stack.restore_frame()?;
    /// assert_eq!((top.ip, top.start, top.instance), (104, 0, 1));
    /// assert_eq!(top.regs, Registers { ireg: 7, freg32: -0.0, freg64: 0.5 });
    /// # Ok::<(), Refusal>(())
    /// ```
    #[inline]
    pub fn restore_frame(&mut self) -> Result<Restored, Refusal> {
        let answer = raw::restore_frame(&self.state, self.words.as_ref(), self.cells.as_ref());
        Refusal::check(answer.number).map(|()| Restored {
            ip: answer.ip,
            start: answer.offset,
            instance: answer.instance,
            regs: self.state.regs,
        })
    }

    /// Empties the stack: no frame, no instance, `len` and registers 0. Words and cells stay. It is the way out of a broken frame.
    ///
    /// Refusal: 9.
    #[inline]
    pub fn reset(&mut self) -> Result<(), Refusal> {
        Refusal::check(raw::reset(&mut self.state, self.words.as_ref(), self.cells.as_ref()))
    }

    /// Writes one cell at the top start plus the head, and hands back its index.
    ///
    /// Refusals, in this order: 9, 4, 7.
    #[inline]
    pub fn set(&mut self, head: u16, cell: u64) -> Result<usize, Refusal> {
        let answer = raw::set(&self.state, self.words.as_ref(), self.cells.as_mut(), head, cell);
        Refusal::check(answer.number).map(|()| answer.offset)
    }

    /// Stores all three registers, bit for bit.
    ///
    /// Refusal: 9.
    #[inline]
    pub fn sync_regs(&mut self, regs: Registers) -> Result<(), Refusal> {
        let number = raw::sync_registers_in_place(&mut self.state, self.words.as_ref(), self.cells.as_ref(), &regs);
        Refusal::check(number)
    }
}
