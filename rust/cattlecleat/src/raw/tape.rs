//! A trace that arrives in blocks: the next block, and the end.
use super::Run;
use crate::RECORD_BYTES;

/// A replay in its course whose trace arrives in blocks. To begin one: a run that begins, and zeros for the rest.
#[repr(C)]
#[derive(Clone, Copy, Debug, PartialEq, Eq)]
pub struct Tape {
    /// The replay.
    pub run: Run,
    /// The bytes of an unfinished record; behind those held they are not looked at.
    pub kept: [u8; RECORD_BYTES],
    /// How many bytes of it are held; more than 39 count as 39.
    pub held: usize,
    /// Whether the end was told.
    pub end_flag: u64,
}

impl Default for Tape {
    /// Zeros.
    fn default() -> Self {
        Self {
            run: Run::default(),
            kept: [0; RECORD_BYTES],
            held: 0,
            end_flag: 0,
        }
    }
}

/// A number, and the tape after it.
#[repr(C)]
#[derive(Clone, Copy, Debug, Default, PartialEq, Eq)]
pub struct Fed {
    /// 0, or 22.
    pub number: u64,
    /// The tape; with 22 the one that came, number for number.
    pub tape: Tape,
}

// Safety of both calls: as for the others.
#[rustfmt::skip]
unsafe extern "C" {
    fn cattlecleat_feed(t: Tape, words: *mut u64, words_len: usize, cells: *mut u64, cells_len: usize, block: *const u8, block_len: usize) -> Fed;
    fn cattlecleat_finish(t: Tape, words: *mut u64, words_len: usize, cells: *mut u64, cells_len: usize) -> Tape;
}

/// Replays the next block of a trace, of any length and cut anywhere: the whole records of the bytes held and the block's. What is left
/// over is held; where the run stops, nothing. After a stop, and by an empty block, nothing is done; then 22 for a block after an end. A
/// tape that nothing moves comes back number for number; else the run comes back as from [`replay`](super::replay), and the bytes behind
/// those held are 0.
///
/// ```
/// use cattlecleat::raw::{self, Run, Tape};
///
/// let (mut words, mut cells) = ([0; 4], [0; 2]);
/// let run = Run { state: raw::open(16, 1, &words, &cells).state, fuel: 9, ..Run::default() };
/// let begun = Tape { run, ..Tape::default() };
/// let fed = raw::feed(begun, &mut words, &mut cells, &[7; 50]);    // a bad record, and 10 bytes of another
/// assert_eq!((fed.number, fed.tape.run), (0, Run { number: 1, spent: 1, ..run }));
/// assert_eq!((&fed.tape.kept[..11], fed.tape.held), (&[7, 7, 7, 7, 7, 7, 7, 7, 7, 7, 0][..], 10));
///
/// let ended = raw::finish(fed.tape, &mut words, &mut cells);
/// assert_eq!(ended, Tape { run: Run { number: 2, spent: 2, ..run }, end_flag: 1, ..Tape::default() });
/// assert_eq!(raw::feed(ended, &mut words, &mut cells, &[7]), raw::Fed { number: 22, tape: ended });
/// ```
#[inline]
pub fn feed(t: Tape, words: &mut [u64], cells: &mut [u64], block: &[u8]) -> Fed {
    unsafe {
        cattlecleat_feed(
            t,
            words.as_mut_ptr(),
            words.len(),
            cells.as_mut_ptr(),
            cells.len(),
            block.as_ptr(),
            block.len(),
        )
    }
}

/// Tells that the trace has ended: bytes held are a short record, which is replayed. After a stop, and after an earlier end, nothing is
/// done, and the tape comes back number for number; else it comes back with nothing held and a flag of 1.
#[inline]
pub fn finish(t: Tape, words: &mut [u64], cells: &mut [u64]) -> Tape {
    unsafe { cattlecleat_finish(t, words.as_mut_ptr(), words.len(), cells.as_mut_ptr(), cells.len()) }
}
