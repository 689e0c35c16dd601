//! The requests with the state in place: what each is given behind a reference, and small answers.
use super::{HostFrame, Part, Registers, State};

/// What a push is given: as in [`Request`](super::Request).
#[repr(C)]
#[derive(Clone, Copy, Debug, Default, PartialEq, Eq)]
pub struct Push {
    /// From the top start to the callee's.
    pub head: u16,
    /// How many parameters.
    pub params: u16,
    /// How many locals, the parameters among them.
    pub locals: u16,
    /// How many slots, the locals among them.
    pub slots: u16,
    /// Whether a caller ip is given.
    pub caller_flag: u64,
    /// The caller ip.
    pub caller: u64,
    /// The callee ip.
    pub callee: u64,
    /// Whether an instance is named.
    pub instance_flag: u64,
    /// The instance.
    pub instance: u64,
}

/// What a replace is given.
#[repr(C)]
#[derive(Clone, Copy, Debug, Default, PartialEq, Eq)]
pub struct Replace {
    /// From the top start to the parameters.
    pub head: u16,
    /// How many parameters.
    pub params: u16,
    /// How many locals, the parameters among them.
    pub locals: u16,
    /// How many slots, the locals among them.
    pub slots: u16,
    /// The callee ip.
    pub callee: u64,
    /// Whether an instance is named.
    pub instance_flag: u64,
    /// The instance.
    pub instance: u64,
}

/// What a host call is given.
#[repr(C)]
#[derive(Clone, Copy, Debug, Default, PartialEq, Eq)]
pub struct Host {
    /// From the top start to the host's.
    pub head: u16,
    /// How many parameters.
    pub params: u16,
    /// How many results.
    pub results: u16,
    /// Whether a caller ip is given.
    pub caller_flag: u64,
    /// The caller ip.
    pub caller: u64,
}

/// What a host call in place of the top frame is given.
#[repr(C)]
#[derive(Clone, Copy, Debug, Default, PartialEq, Eq)]
pub struct ReturnHost {
    /// From the top start to the parameters.
    pub head: u16,
    /// How many parameters.
    pub params: u16,
    /// How many results.
    pub results: u16,
    /// The instance that the return answers where the frame has no debt.
    pub instance: u64,
}

/// A number and an offset. As in [`Answer`](super::Answer), 2 and above are refusals, with zeros.
#[repr(C)]
#[derive(Clone, Copy, Debug, Default, PartialEq, Eq)]
pub struct Offset {
    /// The answer number.
    pub number: u64,
    /// The offset.
    pub offset: usize,
}

/// A frame to go on in.
#[repr(C)]
#[derive(Clone, Copy, Debug, Default, PartialEq, Eq)]
pub struct Frame {
    /// The answer number.
    pub number: u64,
    /// Its start.
    pub offset: usize,
    /// Its ip.
    pub ip: u64,
    /// The instance to go on with.
    pub instance: u64,
}

/// A host's frame over the top frame.
#[repr(C)]
#[derive(Clone, Copy, Debug, Default, PartialEq, Eq)]
pub struct Hosted {
    /// The answer number.
    pub number: u64,
    /// The top start.
    pub offset: usize,
    /// The host's frame.
    pub host: HostFrame,
}

/// A host's frame in place of the top frame, and the frame below.
#[repr(C)]
#[derive(Clone, Copy, Debug, Default, PartialEq, Eq)]
pub struct Returned {
    /// The answer number.
    pub number: u64,
    /// The start of the frame below.
    pub offset: usize,
    /// Its ip.
    pub ip: u64,
    /// The instance to go on with.
    pub instance: u64,
    /// The host's frame.
    pub host: HostFrame,
}

// Safety of every call below: as for the others, and a reference is a true and aligned pointer to one struct, which overlaps nothing where it is
// `&mut`. The bytes between the fields of a struct may be anything.
#[rustfmt::skip]
unsafe extern "C" {
    fn cattlecleat_push_frame(s: *mut State, words: *mut u64, words_len: usize, cells: *mut u64, cells_len: usize, q: *const Push) -> Offset;
    fn cattlecleat_pop_frame(s: *mut State, words: *const u64, words_len: usize, cells: *const u64, cells_len: usize, instance: u64) -> Frame;
    fn cattlecleat_replace_frame(s: *mut State, words: *mut u64, words_len: usize, cells: *mut u64, cells_len: usize, q: *const Replace) -> Offset;
    fn cattlecleat_prepare_host_frame(s: *mut State, words: *mut u64, words_len: usize, cells: *mut u64, cells_len: usize, q: *const Host) -> Hosted;
    fn cattlecleat_return_prepare_host_frame(s: *mut State, words: *const u64, words_len: usize, cells: *mut u64, cells_len: usize, q: *const ReturnHost) -> Returned;
    fn cattlecleat_sync_ip(s: *const State, words: *mut u64, words_len: usize, cells: *const u64, cells_len: usize, ip: u64) -> Offset;
    fn cattlecleat_restore_frame(s: *const State, words: *const u64, words_len: usize, cells: *const u64, cells_len: usize) -> Frame;
    fn cattlecleat_set(s: *const State, words: *const u64, words_len: usize, cells: *mut u64, cells_len: usize, head: u16, cell: u64) -> Offset;
    fn cattlecleat_reset(s: *mut State, words: *const u64, words_len: usize, cells: *const u64, cells_len: usize) -> u64;
    fn cattlecleat_sync_registers_in_place(s: *mut State, words: *const u64, words_len: usize, cells: *const u64, cells_len: usize, regs: *const Registers) -> u64;
    fn cattlecleat_host_part_in_place(s: *const State, words: *const u64, words_len: usize, cells: *const u64, cells_len: usize, frame: *const HostFrame) -> Part;
}

/// Calls: the callee's start.
///
/// ```
/// use cattlecleat::raw::{self, Frame, Offset, Push};
///
/// let (mut words, mut cells) = ([0; 8], [7; 4]);
/// let mut state = raw::open(32, 2, &words, &cells).state;
/// let first = Push { locals: 1, slots: 2, callee: 100, instance_flag: 1, instance: 5, ..Push::default() };
/// assert_eq!(raw::push_frame(&mut state, &mut words, &mut cells, &first), Offset { number: 0, offset: 0 });
/// assert_eq!((state.count, state.len, state.current, cells), (1, 2, 5, [0, 7, 7, 7]));
/// assert_eq!(raw::push_frame(&mut state, &mut words, &mut cells, &first), Offset { number: 6, offset: 0 });
/// assert_eq!(raw::pop_frame(&mut state, &words, &cells, 5), Frame { number: 1, ..Frame::default() });
/// ```
#[inline]
pub fn push_frame(s: &mut State, words: &mut [u64], cells: &mut [u64], q: &Push) -> Offset {
    unsafe { cattlecleat_push_frame(s, words.as_mut_ptr(), words.len(), cells.as_mut_ptr(), cells.len(), q) }
}

/// Returns: 1 where the last frame is gone; else the frame below, with the debt or else the instance given.
#[inline]
pub fn pop_frame(s: &mut State, words: &[u64], cells: &[u64], instance: u64) -> Frame {
    unsafe { cattlecleat_pop_frame(s, words.as_ptr(), words.len(), cells.as_ptr(), cells.len(), instance) }
}

/// Calls in place of the top frame: its start.
#[inline]
pub fn replace_frame(s: &mut State, words: &mut [u64], cells: &mut [u64], q: &Replace) -> Offset {
    unsafe { cattlecleat_replace_frame(s, words.as_mut_ptr(), words.len(), cells.as_mut_ptr(), cells.len(), q) }
}

/// Prepares a host's frame over the top frame.
#[inline]
pub fn prepare_host_frame(s: &mut State, words: &mut [u64], cells: &mut [u64], q: &Host) -> Hosted {
    unsafe { cattlecleat_prepare_host_frame(s, words.as_mut_ptr(), words.len(), cells.as_mut_ptr(), cells.len(), q) }
}

/// Prepares a host's frame in place of the top frame, and returns from that.
#[inline]
pub fn return_prepare_host_frame(s: &mut State, words: &[u64], cells: &mut [u64], q: &ReturnHost) -> Returned {
    unsafe { cattlecleat_return_prepare_host_frame(s, words.as_ptr(), words.len(), cells.as_mut_ptr(), cells.len(), q) }
}

/// Stores an ip in the top frame: its start.
#[inline]
pub fn sync_ip(s: &State, words: &mut [u64], cells: &[u64], ip: u64) -> Offset {
    unsafe { cattlecleat_sync_ip(s, words.as_mut_ptr(), words.len(), cells.as_ptr(), cells.len(), ip) }
}

/// What is needed to go on in the top frame; the registers are in the state.
#[inline]
pub fn restore_frame(s: &State, words: &[u64], cells: &[u64]) -> Frame {
    unsafe { cattlecleat_restore_frame(s, words.as_ptr(), words.len(), cells.as_ptr(), cells.len()) }
}

/// Writes one cell: its index.
#[inline]
pub fn set(s: &State, words: &[u64], cells: &mut [u64], head: u16, cell: u64) -> Offset {
    unsafe { cattlecleat_set(s, words.as_ptr(), words.len(), cells.as_mut_ptr(), cells.len(), head, cell) }
}

/// Empties the stack, registers too. The number: only 9 refuses it.
#[inline]
pub fn reset(s: &mut State, words: &[u64], cells: &[u64]) -> u64 {
    unsafe { cattlecleat_reset(s, words.as_ptr(), words.len(), cells.as_ptr(), cells.len()) }
}

/// Stores all three registers. The number: only 9 refuses it.
#[inline]
pub fn sync_registers_in_place(s: &mut State, words: &[u64], cells: &[u64], regs: &Registers) -> u64 {
    unsafe { cattlecleat_sync_registers_in_place(s, words.as_ptr(), words.len(), cells.as_ptr(), cells.len(), regs) }
}

/// Where a host's part of the cells lies, as by [`host_part`](super::host_part).
#[inline]
pub fn host_part_in_place(s: &State, words: &[u64], cells: &[u64], frame: &HostFrame) -> Part {
    unsafe { cattlecleat_host_part_in_place(s, words.as_ptr(), words.len(), cells.as_ptr(), cells.len(), frame) }
}
