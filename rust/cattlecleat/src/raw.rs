//! The archive's functions as they are: on numbers, slices and structs of numbers, with the state by value in and out, or in place.
//!
//! Every argument gets an answer, so nothing here is `unsafe` to call: what the C face asks of its caller (true, aligned pointers and
//! lengths, and that what is written overlaps nothing) is what slices and references hold by themselves. Two `&[u64]` of one call may
//! overlap, or be the same: [`open`], [`sync_registers`], [`host_part`] and others write to neither, and answer by what each holds.
//!
//! In place ([`push_frame`] and the others that take a `&mut State` or a `&State`) a request answers the same numbers as by value
//! ([`ask`]), faster, and leaves a state that says the same. It writes of it only what it moves, and a refusal nothing.
//!
//! [`Stack`](crate::Stack) is the comfortable way; this is the way for a host that keeps the state itself, and for whoever compares every
//! number.
//!
//! A flag of 0 reads as none whatever the number beside it, any other as given. A refusal hands flags and numbers back as they came, and
//! so does a replay, whole or in blocks ([`feed`]), what the trace left as it was; else a flag comes back as 0 or 1, with 0 beside 0.
//! What changes registers in place are methods of [`Registers`].

mod place;
mod tape;

pub use place::{Frame, Host, Hosted, Offset, Push, Replace, ReturnHost, Returned};
pub use place::{host_part_in_place, pop_frame, prepare_host_frame, push_frame, replace_frame, reset, restore_frame};
pub use place::{return_prepare_host_frame, set, sync_ip, sync_registers_in_place};
pub use tape::{Fed, Tape, feed, finish};

/// The three registers: an integer, an f32 and an f64, kept bit for bit.
#[repr(C)]
#[derive(Clone, Copy, Debug, Default)]
pub struct Registers {
    /// The integer register.
    pub ireg: u64,
    /// The f32 register.
    pub freg32: f32,
    /// The f64 register.
    pub freg64: f64,
}

impl PartialEq for Registers {
    /// By bits: a NaN equals itself, and 0.0 is not -0.0.
    fn eq(&self, other: &Self) -> bool {
        self.ireg == other.ireg && self.freg32.to_bits() == other.freg32.to_bits() && self.freg64.to_bits() == other.freg64.to_bits()
    }
}

impl Eq for Registers {}

/// A host's frame: where its cells begin and end, and how many parameters and results it has.
#[repr(C)]
#[derive(Clone, Copy, Debug, Default, PartialEq, Eq)]
pub struct HostFrame {
    /// The first cell.
    pub start: usize,
    /// The cell behind the last.
    pub end: usize,
    /// How many parameters.
    pub params: u16,
    /// How many results.
    pub results: u16,
}

/// What a stack knows of itself, beside its two lent buffers.
#[repr(C)]
#[derive(Clone, Copy, Debug, Default, PartialEq, Eq)]
pub struct State {
    /// The depth limit, in frames.
    pub depth: usize,
    /// The height limit, in cells.
    pub height: usize,
    /// How many frame words are lent.
    pub words: usize,
    /// How many cells are lent.
    pub cells: usize,
    /// How many frames there are.
    pub count: usize,
    /// How long the cells in use are.
    pub len: usize,
    /// Whether there is a current instance.
    pub current_flag: u64,
    /// The current instance.
    pub current: u64,
    /// The registers.
    pub regs: Registers,
}

/// One of the nine requests, by its kind in document 01. Asked for, what the kind does not use is not looked at; written as a record, it
/// has to be 0.
#[repr(C)]
#[derive(Clone, Copy, Debug, Default, PartialEq, Eq)]
pub struct Request {
    /// 1 push, 2 pop, 3 replace, 4 host, 5 return-host, 6 sync, 7 restore, 8 reset, 9 set.
    pub kind: u64,
    /// From the top start to the callee's cells, the parameters, or the cell to set.
    pub head: u16,
    /// How many parameters.
    pub params: u16,
    /// How many locals, the parameters among them.
    pub locals: u16,
    /// How many slots, the locals among them.
    pub slots: u16,
    /// How many results.
    pub results: u16,
    /// Whether a caller ip is given (push, host).
    pub caller_flag: u64,
    /// The caller ip; the ip of a sync.
    pub caller: u64,
    /// The callee ip; the cell of a set.
    pub callee: u64,
    /// Whether an instance is given (push, replace).
    pub instance_flag: u64,
    /// The instance; for pop and return-host always given.
    pub instance: u64,
}

/// An answer by document 01's numbers, with every number that some request hands back, and the state after it.
#[repr(C)]
#[derive(Clone, Copy, Debug, Default, PartialEq, Eq)]
pub struct Answer {
    /// 0 done; 1 done, and the last frame is gone; 2 and above: refused, nothing changed, and the other numbers are 0.
    pub number: u64,
    /// The offset.
    pub offset: usize,
    /// The ip (pop, return-host, restore).
    pub ip: u64,
    /// The instance (pop, return-host, restore).
    pub instance: u64,
    /// The host frame (host, return-host).
    pub host: HostFrame,
    /// The registers (restore).
    pub regs: Registers,
    /// The state after the request; on a refusal the one that came, number for number.
    pub state: State,
}

/// What a host is lent: two parts of the cells that begin at one offset.
#[repr(C)]
#[derive(Clone, Copy, Debug, Default, PartialEq, Eq)]
pub struct Part {
    /// 0, or 9 or 11.
    pub number: u64,
    /// Where both parts begin.
    pub offset: usize,
    /// How many cells hold parameters.
    pub params: usize,
    /// How many cells there are for results.
    pub results: usize,
}

/// A replay in its course.
#[repr(C)]
#[derive(Clone, Copy, Debug, Default, PartialEq, Eq)]
pub struct Run {
    /// The stack's state.
    pub state: State,
    /// The number of the next record.
    pub number: u64,
    /// The fuel given.
    pub fuel: u64,
    /// What is spent of it.
    pub spent: u64,
    /// Whether the run has stopped.
    pub stop_flag: u64,
    /// The cost of the record that it stopped before.
    pub cost: u64,
}

/// What was read at a place of a trace.
#[repr(C)]
#[derive(Clone, Copy, Debug, Default, PartialEq, Eq)]
pub struct Read {
    /// 0, or 10.
    pub number: u64,
    /// The request; all zeros with 10.
    pub request: Request,
}

/// An aligned address.
#[repr(C)]
#[derive(Clone, Copy, Debug, Default, PartialEq, Eq)]
pub struct Aligned {
    /// 0, or 15.
    pub number: u64,
    /// The address; 0 with 15.
    pub address: u64,
}

/// Why an execution halted, or a slot for at most one such reason: as a slot, kind 0 is empty.
#[repr(C)]
#[derive(Clone, Copy, Debug, Default, PartialEq, Eq)]
pub struct Reason {
    /// 1 returned (the offset), 2 host error, 3 out of fuel (the amount needed); any other is an error, taken out as 4.
    pub kind: u64,
    /// The offset or the amount; handed back as 0 with the two errors.
    pub amount: u64,
}

/// The slot after a call on it.
#[repr(C)]
#[derive(Clone, Copy, Debug, Default, PartialEq, Eq)]
pub struct Done {
    /// 0, or 12 or 13.
    pub number: u64,
    /// The reason that was taken; zeros otherwise.
    pub reason: Reason,
    /// The slot; with 12 and 13 the one that came.
    pub slot: Reason,
}

// Safety of every call below: a slice is a true and aligned pointer, never null, with its length; `&mut` slices overlap nothing, and shared ones
// are only read.
#[rustfmt::skip]
unsafe extern "C" {
    fn cattlecleat_open(bytes: usize, depth: usize, words: *const u64, words_len: usize, cells: *const u64, cells_len: usize) -> Answer;
    fn cattlecleat_ask(s: State, words: *mut u64, words_len: usize, cells: *mut u64, cells_len: usize, q: Request) -> Answer;
    fn cattlecleat_sync_registers(s: State, words: *const u64, words_len: usize, cells: *const u64, cells_len: usize, regs: Registers) -> Answer;
    fn cattlecleat_read_registers(s: State) -> Registers;
    fn cattlecleat_host_part(s: State, words: *const u64, words_len: usize, cells: *const u64, cells_len: usize, frame: HostFrame) -> Part;
    fn cattlecleat_replay(run: Run, words: *mut u64, words_len: usize, cells: *mut u64, cells_len: usize, trace: *const u8, trace_len: usize) -> Run;
    fn cattlecleat_read_record(bytes: *const u8, bytes_len: usize, at: usize) -> Read;
    fn cattlecleat_write_record(bytes: *mut u8, bytes_len: usize, at: usize, q: Request) -> u64;
    fn cattlecleat_to_register(kind: u64, number: u64) -> u64;
    fn cattlecleat_from_register(kind: u64, register: u64) -> u64;
    fn cattlecleat_align(ip: u64, base: u64) -> Aligned;
    fn cattlecleat_done_with(slot: Reason, reason: Reason) -> Done;
    fn cattlecleat_take_done_reason(slot: Reason) -> Done;
}

/// Opens a stack over two buffers, touching neither: the height limit in bytes, the depth limit in frames. 14 beyond the limits or with
/// too few words.
pub fn open(bytes: usize, depth: usize, words: &[u64], cells: &[u64]) -> Answer {
    unsafe { cattlecleat_open(bytes, depth, words.as_ptr(), words.len(), cells.as_ptr(), cells.len()) }
}

/// Asks for a request. 10 where the kind is none of the nine.
#[inline]
pub fn ask(s: State, words: &mut [u64], cells: &mut [u64], q: Request) -> Answer {
    unsafe { cattlecleat_ask(s, words.as_mut_ptr(), words.len(), cells.as_mut_ptr(), cells.len(), q) }
}

/// Stores all three registers. Only 9 refuses it.
#[inline]
pub fn sync_registers(s: State, words: &[u64], cells: &[u64], regs: Registers) -> Answer {
    unsafe { cattlecleat_sync_registers(s, words.as_ptr(), words.len(), cells.as_ptr(), cells.len(), regs) }
}

/// The three registers of a state.
#[inline]
pub fn read_registers(s: State) -> Registers {
    unsafe { cattlecleat_read_registers(s) }
}

/// Where a host's part of the cells lies. 9, 11; zeros where it is refused or empty.
#[inline]
pub fn host_part(s: State, words: &[u64], cells: &[u64], frame: HostFrame) -> Part {
    unsafe { cattlecleat_host_part(s, words.as_ptr(), words.len(), cells.as_ptr(), cells.len(), frame) }
}

/// Replays a whole trace, or up to where the fuel does not cover a record. What the trace leaves as it was comes back number for number:
/// the state where no record was accepted, and a flag with the number beside it where they still say what is so.
///
/// ```
/// use cattlecleat::raw::{self, Run};
///
/// let (mut words, mut cells) = ([0; 4], [0; 2]);
/// let mut came = Run { state: raw::open(16, 1, &words, &cells).state, fuel: 9, cost: 5, ..Run::default() };
/// (came.state.current_flag, came.state.current) = (2, 7);
/// let run = raw::replay(came, &mut words, &mut cells, &[0; 40]);    // one record, a bad one
/// assert_eq!(run, Run { number: 1, spent: 1, ..came });
/// ```
pub fn replay(run: Run, words: &mut [u64], cells: &mut [u64], trace: &[u8]) -> Run {
    unsafe {
        cattlecleat_replay(
            run,
            words.as_mut_ptr(),
            words.len(),
            cells.as_mut_ptr(),
            cells.len(),
            trace.as_ptr(),
            trace.len(),
        )
    }
}

/// The request of the record at a place. 10 where it breaks the rules of its kind or fewer than 40 bytes are left.
pub fn read_record(bytes: &[u8], at: usize) -> Read {
    unsafe { cattlecleat_read_record(bytes.as_ptr(), bytes.len(), at) }
}

/// Writes the record that the numbers spell at a place, what the kind does not use too: 0. 10, and no byte changes, where that record breaks
/// the rules of its kind (a flag that the kind does not have or lacks, a number that it does not use or that stands beside a clear flag)
/// or fewer than 40 bytes are left.
///
/// ```
/// use cattlecleat::raw::{self, Request};
///
/// let mut bytes = [0; 40];
/// let pop = Request { kind: 2, instance_flag: 1, instance: 7, ..Request::default() };
/// assert_eq!(raw::write_record(&mut bytes, 0, pop), 0);
/// assert_eq!(raw::read_record(&bytes, 0).request, pop);
/// assert_eq!(raw::write_record(&mut bytes, 0, Request { head: 5, ..pop }), 10);
/// assert_eq!(raw::write_record(&mut bytes, 0, Request { instance_flag: 0, ..pop }), 10);
/// ```
pub fn write_record(bytes: &mut [u8], at: usize, q: Request) -> u64 {
    unsafe { cattlecleat_write_record(bytes.as_mut_ptr(), bytes.len(), at, q) }
}

/// The register of a number: types 1 to 8 are u8, u16, u32, u64, i8, i16, i32, i64, type 9 is bool, any other is taken as u64. The
/// number's low bits count, zero-extended; of a bool, whether it is 0.
pub fn to_register(kind: u64, number: u64) -> u64 {
    unsafe { cattlecleat_to_register(kind, number) }
}

/// The number of a register, by the same types: its low bits, a signed one with its sign in all 64 bits.
pub fn from_register(kind: u64, register: u64) -> u64 {
    unsafe { cattlecleat_from_register(kind, register) }
}

/// Base plus the distance of ip from it, rounded up to a multiple of 8. 15 where ip is below base or the address above the largest u64.
pub fn align(ip: u64, base: u64) -> Aligned {
    unsafe { cattlecleat_align(ip, base) }
}

/// Fills a slot. 12 where it is filled already: that reason stays.
pub fn done_with(slot: Reason, reason: Reason) -> Done {
    unsafe { cattlecleat_done_with(slot, reason) }
}

/// Takes the reason out of a slot. 13 where there is none.
pub fn take_done_reason(slot: Reason) -> Done {
    unsafe { cattlecleat_take_done_reason(slot) }
}
