//! Ours: the archive's functions in place.

use super::Face;
use cattlecleat::raw::{self, Frame, Host, Hosted, Offset, Push, Replace, ReturnHost, Returned, State};

pub struct Ours;

impl Face for Ours {
    #[inline]
    fn push_frame(s: &mut State, words: &mut [u64], cells: &mut [u64], q: &Push) -> Offset {
        raw::push_frame(s, words, cells, q)
    }

    #[inline]
    fn pop_frame(s: &mut State, words: &[u64], cells: &[u64], instance: u64) -> Frame {
        raw::pop_frame(s, words, cells, instance)
    }

    #[inline]
    fn replace_frame(s: &mut State, words: &mut [u64], cells: &mut [u64], q: &Replace) -> Offset {
        raw::replace_frame(s, words, cells, q)
    }

    #[inline]
    fn prepare_host_frame(s: &mut State, words: &mut [u64], cells: &mut [u64], q: &Host) -> Hosted {
        raw::prepare_host_frame(s, words, cells, q)
    }

    #[inline]
    fn return_prepare_host_frame(s: &mut State, words: &[u64], cells: &mut [u64], q: &ReturnHost) -> Returned {
        raw::return_prepare_host_frame(s, words, cells, q)
    }
}
