//! What a case is made of as lists of numbers, and back. An optional number is a flag and a number.

use super::Opening;
use crate::plain::{HostFrame, Regs, Replay, Request, State, Straight, anew, said};

pub const OPEN: [&str; 5] = ["bytes", "depth", "words", "cells", "fill"];
pub const STATE: [&str; 11] = [
    "depth",
    "height",
    "words",
    "cells",
    "count",
    "len",
    "current-flag",
    "current",
    "ireg",
    "freg32",
    "freg64",
];
pub const REGS: [&str; 3] = ["ireg", "freg32", "freg64"];
pub const PART: [&str; 7] = ["start", "end", "params", "results", "write-flag", "at", "cell"];
pub const REPLAY: [&str; 5] = ["number", "fuel", "spent", "stop-flag", "cost"];
/// A request's numbers after its kind.
pub const REQUEST: [&str; 10] = [
    "head",
    "params",
    "locals",
    "slots",
    "results",
    "caller-flag",
    "caller",
    "callee",
    "instance-flag",
    "instance",
];
/// Which of them each kind uses.
pub const USED: [&[usize]; 9] = [
    &[0, 1, 2, 3, 5, 6, 7, 8, 9],
    &[9],
    &[0, 1, 2, 3, 7, 8, 9],
    &[0, 1, 4, 5, 6],
    &[0, 1, 4, 9],
    &[6],
    &[],
    &[],
    &[0, 7],
];

pub trait Numbers: Sized {
    fn numbers(&self) -> Vec<u64>;

    /// Nothing where the numbers are too many, too few or too large.
    fn of(numbers: &[u64]) -> Option<Self>;
}

/// A list of just so many numbers.
fn exactly<const N: usize>(numbers: &[u64]) -> Option<[u64; N]> {
    numbers.try_into().ok()
}

impl Numbers for Opening {
    fn numbers(&self) -> Vec<u64> {
        vec![self.bytes, self.depth, self.words, self.cells, self.fill]
    }

    fn of(numbers: &[u64]) -> Option<Self> {
        let [bytes, depth, words, cells, fill] = exactly(numbers)?;
        Some(Self {
            bytes,
            depth,
            words,
            cells,
            fill,
        })
    }
}

impl Numbers for Regs {
    fn numbers(&self) -> Vec<u64> {
        vec![self.ireg, self.freg32.into(), self.freg64]
    }

    fn of(numbers: &[u64]) -> Option<Self> {
        let [ireg, freg32, freg64] = exactly(numbers)?;
        Some(Self {
            ireg,
            freg32: freg32.try_into().ok()?,
            freg64,
        })
    }
}

impl Numbers for State {
    fn numbers(&self) -> Vec<u64> {
        let sizes = [self.depth, self.height, self.words, self.cells, self.count, self.len];
        [&sizes[..], &anew(self.current), &self.regs.numbers()].concat()
    }

    fn of(numbers: &[u64]) -> Option<Self> {
        let [depth, height, words, cells, count, len, flag, current, regs @ ..] = exactly::<11>(numbers)?;
        Some(Self {
            depth,
            height,
            words,
            cells,
            count,
            len,
            current: said([flag, current]),
            regs: Regs::of(&regs)?,
        })
    }
}

/// A host frame, and what a host writes through its part.
impl Numbers for (HostFrame, Option<(u64, u64)>) {
    fn numbers(&self) -> Vec<u64> {
        let (frame, write) = self;
        let (at, cell) = write.unwrap_or((0, 0));
        vec![
            frame.start,
            frame.end,
            frame.params.into(),
            frame.results.into(),
            u64::from(write.is_some()),
            at,
            cell,
        ]
    }

    fn of(numbers: &[u64]) -> Option<Self> {
        let [start, end, params, results, flag, at, cell] = exactly(numbers)?;
        let frame = HostFrame {
            start,
            end,
            params: params.try_into().ok()?,
            results: results.try_into().ok()?,
        };
        Some((frame, (flag != 0).then_some((at, cell))))
    }
}

impl Numbers for Replay {
    fn numbers(&self) -> Vec<u64> {
        [&[self.number, self.fuel, self.spent][..], &anew(self.stopped)].concat()
    }

    fn of(numbers: &[u64]) -> Option<Self> {
        let [number, fuel, spent, flag, cost] = exactly(numbers)?;
        Some(Self {
            number,
            fuel,
            spent,
            stopped: said([flag, cost]),
        })
    }
}

/// What is given has the flag 1.
impl Numbers for Request {
    fn numbers(&self) -> Vec<u64> {
        Straight::of(self).numbers()
    }

    fn of(numbers: &[u64]) -> Option<Self> {
        let q = <Straight as Numbers>::of(numbers)?;
        Some(Self {
            kind: q.kind,
            head: q.head,
            params: q.params,
            locals: q.locals,
            slots: q.slots,
            results: q.results,
            caller: said([q.caller_flag, q.caller]),
            callee: q.callee,
            instance: said([q.instance_flag, q.instance]),
        })
    }
}

/// The kind first.
impl Numbers for Straight {
    fn numbers(&self) -> Vec<u64> {
        let counts = [self.head, self.params, self.locals, self.slots, self.results].map(u64::from);
        let words = [self.caller_flag, self.caller, self.callee, self.instance_flag, self.instance];
        [&[self.kind][..], &counts, &words].concat()
    }

    fn of(numbers: &[u64]) -> Option<Self> {
        let [
            kind,
            head,
            params,
            locals,
            slots,
            results,
            caller_flag,
            caller,
            callee,
            instance_flag,
            instance,
        ] = exactly(numbers)?;
        Some(Self {
            kind,
            head: head.try_into().ok()?,
            params: params.try_into().ok()?,
            locals: locals.try_into().ok()?,
            slots: slots.try_into().ok()?,
            results: results.try_into().ok()?,
            caller_flag,
            caller,
            callee,
            instance_flag,
            instance,
        })
    }
}
