//! A request as the functions in place take it, and what they hand back added up.

use super::{Face, Sums};
use crate::party::arguments::{host, push, replace, return_host};
use cattlecleat::raw::{Host, Push, Replace, Request, ReturnHost, State};

pub enum Asked {
    Push(Push),
    Pop(u64),
    Replace(Replace),
    Host(Host),
    ReturnHost(ReturnHost),
}

impl Asked {
    /// The traces that are timed have calls alone.
    pub fn of(q: &Request) -> Result<Self, String> {
        Ok(match q.kind {
            1 => Self::Push(push(q)),
            2 => Self::Pop(q.instance),
            3 => Self::Replace(replace(q)),
            4 => Self::Host(host(q)),
            5 => Self::ReturnHost(return_host(q)),
            kind => return Err(format!("kind {kind} is no call")),
        })
    }

    /// The answer's number.
    #[inline]
    pub fn ask<F: Face>(&self, s: &mut State, words: &mut [u64], cells: &mut [u64], sums: &mut Sums) -> u64 {
        match self {
            Self::Push(q) => {
                let found = F::push_frame(s, words, cells, q);
                sums.offset(found.offset);
                found.number
            }
            Self::Pop(instance) => {
                let found = F::pop_frame(s, words, cells, *instance);
                sums.offset(found.offset);
                sums.resumed(found.ip, found.instance);
                found.number
            }
            Self::Replace(q) => {
                let found = F::replace_frame(s, words, cells, q);
                sums.offset(found.offset);
                found.number
            }
            Self::Host(q) => {
                let found = F::prepare_host_frame(s, words, cells, q);
                sums.offset(found.offset);
                sums.host(&found.host);
                found.number
            }
            Self::ReturnHost(q) => {
                let found = F::return_prepare_host_frame(s, words, cells, q);
                sums.offset(found.offset);
                sums.resumed(found.ip, found.instance);
                sums.host(&found.host);
                found.number
            }
        }
    }
}
