//! What a line asks: its word, and what it gives.

use super::text::{Token, numbers};
use crate::plain::{Flagged, HostFrame, Regs, Replay, Straight};
use crate::reading::{RECORD_BYTES, StraightTape};
use std::ops::Range;

/// The words of the nine kinds, 1 first.
const KIND_WORDS: [&str; 9] = ["push", "pop", "replace", "host", "return", "sync", "restore", "reset", "set"];

#[derive(Clone, Debug)]
pub enum Call {
    /// Bytes, depth, words, cells.
    Open([u64; 4]),
    /// Written as a record and read; what was read is asked.
    Request(Straight),
    Ask(Straight),
    Record([u8; RECORD_BYTES]),
    Registers(Regs),
    Part(HostFrame),
    /// A run, how its stop is told, the bytes that are replayed, and how many times.
    Replay(Replay, Flagged, Range<usize>, u64),
    /// Bytes of the trace, the next block of the tape.
    Feed(Range<usize>),
    Finish,
    /// How many bytes there are, and where the record begins.
    Read(usize, u64),
    Write(usize, u64, Straight),
    /// A type, and a number or a register.
    Into(u64, u64),
    From(u64, u64),
    /// An ip and its base.
    Align(u64, u64),
    /// A slot and a reason, by kind and amount.
    Fill([u64; 2], [u64; 2]),
    Take([u64; 2]),
}

impl Call {
    pub fn word(&self) -> &'static str {
        match self {
            Self::Open(_) => "open",
            Self::Request(q) => KIND_WORDS[q.kind as usize - 1],
            Self::Ask(_) => "ask",
            Self::Record(_) => "record",
            Self::Registers(_) => "regs",
            Self::Part(_) => "part",
            Self::Replay(..) => "replay",
            Self::Feed(_) => "feed",
            Self::Finish => "finish",
            Self::Read(..) => "read",
            Self::Write(..) => "write",
            Self::Into(..) => "into",
            Self::From(..) => "from",
            Self::Align(..) => "align",
            Self::Fill(..) => "fill",
            Self::Take(_) => "take",
        }
    }

    pub fn given(&self) -> Vec<Token> {
        match self {
            Self::Open(opening) => numbers(opening),
            Self::Request(q) => q.columns(),
            Self::Ask(q) => q.with_kind(),
            Self::Record(record) => Token::bytes(record),
            Self::Registers(regs) => registers(regs),
            Self::Part(frame) => numbers(&host(frame)),
            Self::Replay(run, stop, bytes, times) => {
                let then = numbers(&[bytes.start as u64, bytes.end as u64, *times]);
                [course(run, *stop), then].concat()
            }
            Self::Feed(bytes) => numbers(&[bytes.start as u64, bytes.end as u64]),
            Self::Finish => Vec::new(),
            Self::Read(length, at) => numbers(&[*length as u64, *at]),
            Self::Write(length, at, q) => [numbers(&[*length as u64, *at]), q.with_kind()].concat(),
            Self::Into(kind, number) | Self::From(kind, number) => numbers(&[*kind, *number]),
            Self::Align(ip, base) => numbers(&[*ip, *base]),
            Self::Fill(slot, reason) => vec![Token::pair(*slot), Token::pair(*reason)],
            Self::Take(slot) => vec![Token::pair(*slot)],
        }
    }
}

pub fn registers(regs: &Regs) -> Vec<Token> {
    numbers(&[regs.ireg, regs.freg32.into(), regs.freg64])
}

/// Start, end, parameters, results.
pub fn host(frame: &HostFrame) -> [u64; 4] {
    [frame.start, frame.end, frame.params.into(), frame.results.into()]
}

/// A replay in its course, with its stop as it is told.
pub fn course(run: &Replay, stop: Flagged) -> Vec<Token> {
    let counts = numbers(&[run.number, run.fuel, run.spent]);
    [counts, vec![Token::pair(stop)]].concat()
}

/// A tape's twelve numbers, five of them the bytes that it keeps.
pub fn tape_tokens(t: &StraightTape) -> Vec<Token> {
    let then = numbers(&[t.held, t.end_flag]);
    [course(&t.tape().run, t.stop), then, Token::bytes(&t.kept)].concat()
}
