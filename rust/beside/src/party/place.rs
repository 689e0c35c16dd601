//! The archive's requests in place, asked for and answered in the structs of those by value: so one party can go either way.

use super::arguments::{host, push, replace, return_host};
use crate::plain::{Flagged, anew, said};
use cattlecleat::raw::{self, Answer, Registers, Request, State};

/// Asks in place. A kind that is none of the nine has no function there.
pub fn ask(state: &mut State, words: &mut [u64], cells: &mut [u64], q: &Request) -> Answer {
    let answer = match q.kind {
        1 => of_offset(raw::push_frame(state, words, cells, &push(q))),
        2 => of_frame(raw::pop_frame(state, words, cells, q.instance)),
        3 => of_offset(raw::replace_frame(state, words, cells, &replace(q))),
        4 => of_hosted(raw::prepare_host_frame(state, words, cells, &host(q))),
        5 => of_returned(raw::return_prepare_host_frame(state, words, cells, &return_host(q))),
        6 => of_offset(raw::sync_ip(state, words, cells, q.caller)),
        7 => restored(raw::restore_frame(state, words, cells), state.regs),
        8 => of_number(raw::reset(state, words, cells)),
        9 => of_offset(raw::set(state, words, cells, q.head, q.callee)),
        _ => raw::ask(*state, words, cells, *q),
    };
    Answer { state: *state, ..answer }
}

pub fn sync_registers(state: &mut State, words: &[u64], cells: &[u64], regs: &Registers) -> Answer {
    let answer = of_number(raw::sync_registers_in_place(state, words, cells, regs));
    Answer { state: *state, ..answer }
}

/// What an accepted request leaves of the flag and the number of the current instance: only those that move it write them, and only where
/// there is one; a reset writes zeros.
pub fn left(kind: u64, came: Flagged, found: Flagged) -> Flagged {
    match (kind, said(found)) {
        (1 | 2 | 3 | 5, Some(instance)) => anew(Some(instance)),
        (8, _) => anew(None),
        _ => came,
    }
}

fn of_number(number: u64) -> Answer {
    Answer {
        number,
        ..Answer::default()
    }
}

fn of_offset(r: raw::Offset) -> Answer {
    Answer {
        offset: r.offset,
        ..of_number(r.number)
    }
}

fn of_frame(r: raw::Frame) -> Answer {
    Answer {
        number: r.number,
        offset: r.offset,
        ip: r.ip,
        instance: r.instance,
        ..Answer::default()
    }
}

/// The registers are in the state; a refusal hands back none.
fn restored(r: raw::Frame, regs: Registers) -> Answer {
    let regs = if r.number < 2 { regs } else { Registers::default() };
    Answer { regs, ..of_frame(r) }
}

fn of_hosted(r: raw::Hosted) -> Answer {
    Answer {
        number: r.number,
        offset: r.offset,
        host: r.host,
        ..Answer::default()
    }
}

fn of_returned(r: raw::Returned) -> Answer {
    Answer {
        number: r.number,
        offset: r.offset,
        ip: r.ip,
        instance: r.instance,
        host: r.host,
        ..Answer::default()
    }
}
