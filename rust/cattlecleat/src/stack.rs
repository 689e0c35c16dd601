//! A stack over two buffers: how it is opened, looked at and taken apart.
use crate::raw::{self, State};
use crate::{Refusal, Registers};

/// How deep and how high a stack may grow.
#[derive(Clone, Copy, Debug, Default, PartialEq, Eq, Hash)]
pub struct Limits {
    /// The depth limit D, in frames: at most 65,536.
    pub depth: usize,
    /// The height limit M, in bytes: at most 8,388,608. A cell has 8 bytes; what is left over does not count.
    pub bytes: usize,
}

/// How many words a frame takes.
pub const FRAME_WORDS: usize = 4;

/// How many bytes a cell takes.
const CELL_BYTES: usize = 8;

/// A frame of a stack.
#[derive(Clone, Copy, Debug, PartialEq, Eq, Hash)]
pub struct Frame {
    /// Where its function goes on.
    pub ip: u64,
    /// Where its cells begin.
    pub start: usize,
    /// The instance that becomes current again when it returns, where that is another than its own.
    pub debt: Option<u64>,
}

/// The call stack, over a buffer of frame words and a buffer of cells, both lent (`&mut [u64]`) or owned (`Vec<u64>`).
///
/// ```
/// use cattlecleat::{FRAME_WORDS, Limits, PushArgs, Stack};
///
/// let limits = Limits { depth: 64, bytes: 32_768 };
/// let owned = Stack::open(limits, vec![0; 64 * FRAME_WORDS], vec![0; 4096])?;
/// assert_eq!((owned.depth(), owned.len(), owned.current()), (0, 0, None));
///
/// let (mut words, mut cells) = ([0; 64 * FRAME_WORDS], [7; 4096]);
/// let mut lent = Stack::open(limits, &mut words, &mut cells)?;
/// lent.push_frame(PushArgs { callee: 100, locals: 2, slots: 4, ..PushArgs::default() })?;
/// assert_eq!(lent.cells(), [0, 0, 7, 7]);    // two locals are zeroed; the other slots keep what the buffer held
/// # Ok::<(), cattlecleat::Refusal>(())
/// ```
///
/// Every request gets an answer, whatever the state and the buffers hold, and a refused one changes nothing.
#[derive(Clone, Debug)]
pub struct Stack<W, C = W> {
    pub(crate) state: State,
    pub(crate) words: W,
    pub(crate) cells: C,
}

impl<W, C> Stack<W, C> {
    /// Takes a stack up again where [`into_parts`](Self::into_parts) or [`state`](Self::state) left it. Any state and buffers will do:
    /// where they do not fit each other, requests are refused with [`Refusal::Broken`].
    ///
    /// ```
    /// use cattlecleat::{FRAME_WORDS, Limits, Refusal, Stack};
    ///
    /// let stack = Stack::open(Limits { depth: 3, bytes: 80 }, vec![0; 3 * FRAME_WORDS], vec![0; 10])?;
    /// let (state, words, cells) = stack.into_parts();
    /// assert_eq!(Stack::resume(state, words, cells).reset(), Ok(()));
    /// assert_eq!(Stack::resume(state, vec![0; 3 * FRAME_WORDS], vec![0; 9]).reset(), Err(Refusal::Broken));
    /// # Ok::<(), Refusal>(())
    /// ```
    pub fn resume(state: State, words: W, cells: C) -> Self {
        Self { state, words, cells }
    }

    /// The state and the two buffers, words first.
    pub fn into_parts(self) -> (State, W, C) {
        (self.state, self.words, self.cells)
    }

    /// The state, in plain numbers.
    pub fn state(&self) -> State {
        self.state
    }

    /// The limits, with the height limit in whole cells of 8 bytes.
    pub fn limits(&self) -> Limits {
        Limits {
            depth: self.state.depth,
            bytes: self.state.height.saturating_mul(CELL_BYTES),
        }
    }

    /// How many frames there are.
    #[inline]
    #[allow(
        clippy::misnamed_getters,
        reason = "document 01's depth is the frame count; the state's field is the limit"
    )]
    pub fn depth(&self) -> usize {
        self.state.count
    }

    /// How long the cells in use are. It falls only on a reset, never on a return.
    #[inline]
    #[allow(clippy::len_without_is_empty, reason = "a stack without a cell in use can have frames")]
    pub fn len(&self) -> usize {
        self.state.len
    }

    /// The current instance.
    #[inline]
    pub fn current(&self) -> Option<u64> {
        (self.state.current_flag != 0).then_some(self.state.current)
    }

    /// The three registers, as they were stored; all zero after opening and after a reset.
    #[inline]
    pub fn regs(&self) -> Registers {
        raw::read_registers(self.state)
    }
}

impl<W: AsRef<[u64]>, C: AsRef<[u64]>> Stack<W, C> {
    /// Opens a stack without frame or instance, `len` and registers 0, touching no buffer. At least 4·D words are lent, and at most
    /// 1,048,576 cells. [`Refusal::BadOpening`] beyond the limits, or with too few words; owned buffers are dropped then.
    pub fn open(limits: Limits, words: W, cells: C) -> Result<Self, Refusal> {
        let answer = raw::open(limits.bytes, limits.depth, words.as_ref(), cells.as_ref());
        Refusal::check(answer.number)?;
        Ok(Self {
            state: answer.state,
            words,
            cells,
        })
    }

    /// A frame by its index, the oldest at 0; none from [`depth`](Self::depth) on.
    ///
    /// ```
    /// use cattlecleat::{FRAME_WORDS, Frame, Limits, PushArgs, Stack};
    ///
    /// let mut stack = Stack::open(Limits { depth: 3, bytes: 80 }, vec![0; 3 * FRAME_WORDS], vec![0; 10])?;
    /// stack.push_frame(PushArgs { callee: 100, slots: 4, instance: Some(1), ..PushArgs::default() })?;
    /// stack.push_frame(PushArgs { caller: Some(101), callee: 200, head: 2, slots: 3, instance: Some(2), ..PushArgs::default() })?;
    /// assert_eq!(stack.frame(0), Some(Frame { ip: 101, start: 0, debt: None }));
    /// assert_eq!(stack.frame(1), Some(Frame { ip: 200, start: 2, debt: Some(1) }));
    /// assert_eq!(stack.frame(2), None);
    /// # Ok::<(), cattlecleat::Refusal>(())
    /// ```
    pub fn frame(&self, index: usize) -> Option<Frame> {
        if index >= self.state.count {
            return None;
        }
        let (rows, _) = self.words.as_ref().as_chunks::<FRAME_WORDS>();
        let [ip, start, flag, instance] = *rows.get(index)?;
        Some(Frame {
            ip,
            start: start as usize,
            debt: (flag != 0).then_some(instance),
        })
    }

    /// All lent frame words, four per frame, oldest first: ip, start, debt flag and debt instance. Those of removed frames stay.
    pub fn words(&self) -> &[u64] {
        self.words.as_ref()
    }

    /// The cells in use.
    #[inline]
    pub fn cells(&self) -> &[u64] {
        let cells = self.cells.as_ref();
        &cells[..cells.len().min(self.state.len)]
    }
}

impl<W, C: AsMut<[u64]>> Stack<W, C> {
    /// The cells in use, to write to: any cell may hold anything.
    #[inline]
    pub fn cells_mut(&mut self) -> &mut [u64] {
        let cells = self.cells.as_mut();
        let len = cells.len().min(self.state.len);
        &mut cells[..len]
    }
}
