//! C by hand (c/): as fast as a C programmer makes it who leaves out no check.

#[cfg(test)]
mod tests;

use super::in_place::Face;
use cattlecleat::raw::{Frame, Host, Hosted, Offset, Push, Replace, ReturnHost, Returned, Run, State};

// Safety of every call below: as of the archive's (`cattlecleat::raw`).
#[rustfmt::skip]
unsafe extern "C" {
    fn floor_push_frame(s: *mut State, words: *mut u64, words_len: usize, cells: *mut u64, cells_len: usize, q: *const Push) -> Offset;
    fn floor_pop_frame(s: *mut State, words: *const u64, words_len: usize, cells: *const u64, cells_len: usize, instance: u64) -> Frame;
    fn floor_replace_frame(s: *mut State, words: *mut u64, words_len: usize, cells: *mut u64, cells_len: usize, q: *const Replace) -> Offset;
    fn floor_prepare_host_frame(s: *mut State, words: *mut u64, words_len: usize, cells: *mut u64, cells_len: usize, q: *const Host) -> Hosted;
    fn floor_return_prepare_host_frame(s: *mut State, words: *const u64, words_len: usize, cells: *mut u64, cells_len: usize, q: *const ReturnHost) -> Returned;
    fn floor_replay(run: Run, words: *mut u64, words_len: usize, cells: *mut u64, cells_len: usize, trace: *const u8, trace_len: usize) -> Run;
}

pub struct Floor;

impl Face for Floor {
    #[inline]
    fn push_frame(s: &mut State, words: &mut [u64], cells: &mut [u64], q: &Push) -> Offset {
        unsafe { floor_push_frame(s, words.as_mut_ptr(), words.len(), cells.as_mut_ptr(), cells.len(), q) }
    }

    #[inline]
    fn pop_frame(s: &mut State, words: &[u64], cells: &[u64], instance: u64) -> Frame {
        unsafe { floor_pop_frame(s, words.as_ptr(), words.len(), cells.as_ptr(), cells.len(), instance) }
    }

    #[inline]
    fn replace_frame(s: &mut State, words: &mut [u64], cells: &mut [u64], q: &Replace) -> Offset {
        unsafe { floor_replace_frame(s, words.as_mut_ptr(), words.len(), cells.as_mut_ptr(), cells.len(), q) }
    }

    #[inline]
    fn prepare_host_frame(s: &mut State, words: &mut [u64], cells: &mut [u64], q: &Host) -> Hosted {
        unsafe { floor_prepare_host_frame(s, words.as_mut_ptr(), words.len(), cells.as_mut_ptr(), cells.len(), q) }
    }

    #[inline]
    fn return_prepare_host_frame(s: &mut State, words: &[u64], cells: &mut [u64], q: &ReturnHost) -> Returned {
        unsafe { floor_return_prepare_host_frame(s, words.as_ptr(), words.len(), cells.as_mut_ptr(), cells.len(), q) }
    }
}

pub fn replay(run: Run, words: &mut [u64], cells: &mut [u64], trace: &[u8]) -> Run {
    unsafe {
        floor_replay(
            run,
            words.as_mut_ptr(),
            words.len(),
            cells.as_mut_ptr(),
            cells.len(),
            trace.as_ptr(),
            trace.len(),
        )
    }
}
