//! The counts of a request, chosen with the state in view: sums that end at, just below and just above each limit.

use crate::case::FRAME_WORDS;
use crate::plain::Request;
use crate::reading::Reading;
use crate::rng::Rng;

/// The newest frame's start, or some number where the words are not as they should be.
fn top_start(stack: &Reading) -> u64 {
    let row = stack.state.count.wrapping_sub(1).wrapping_mul(FRAME_WORDS).wrapping_add(1);
    stack
        .words
        .get(row as usize)
        .copied()
        .filter(|_| stack.state.count > 0)
        .unwrap_or(0)
}

/// How far it is from the top start to one of the three lengths, give or take one.
fn room(rng: &mut Rng, stack: &Reading) -> u64 {
    let end = rng.pick(&[stack.state.height, stack.state.cells, stack.state.len]);
    end.saturating_add(rng.below(3)).saturating_sub(1).saturating_sub(top_start(stack))
}

/// How many cells a request reaches above the top start: few, as many as lead to a limit, or seldom any number.
fn reach(rng: &mut Rng, stack: &Reading) -> u64 {
    match rng.below(32) {
        0 => rng.below(1 << 17),
        1..=10 => room(rng, stack),
        _ => rng.below(5),
    }
}

fn count(number: u64) -> u16 {
    u16::try_from(number).unwrap_or(u16::MAX)
}

fn below(rng: &mut Rng, end: u16) -> u16 {
    rng.below(u64::from(end) + 1) as u16
}

/// A head and what is left above it; their sum may need more than 16 bits. Seldom a head so high that the sum just does.
fn split(rng: &mut Rng, whole: u64) -> (u16, u16) {
    if rng.once_in(32) {
        return (u16::MAX - below(rng, 2), count(whole));
    }
    let least = whole.saturating_sub(u64::from(u16::MAX));
    let head = if least == 0 && rng.once_in(2) {
        0
    } else {
        count(rng.range(least, whole))
    };
    (head, count(whole - u64::from(head)))
}

/// params ≤ locals ≤ slots, mostly.
fn ordered(rng: &mut Rng, slots: u16) -> (u16, u16) {
    let locals = below(rng, slots);
    let params = below(rng, locals);
    match rng.below(40) {
        0 => (params, slots.saturating_add(1)),
        1 => (locals.saturating_add(1), locals),
        _ => (params, locals),
    }
}

pub fn push(rng: &mut Rng, base: Request, stack: &Reading) -> Request {
    let whole = reach(rng, stack);
    let (head, slots) = split(rng, whole);
    let head = if slots == 0 && !rng.once_in(8) { 0 } else { head };
    let (params, locals) = ordered(rng, slots);
    Request {
        head,
        params,
        locals,
        slots,
        ..base
    }
}

/// The parameters overlap their new place, end at the new length or one off it, or lie anywhere.
pub fn replace(rng: &mut Rng, base: Request, stack: &Reading) -> Request {
    let slots = count(reach(rng, stack));
    let (params, locals) = ordered(rng, slots);
    let len = stack.state.len.saturating_sub(top_start(stack)).max(u64::from(slots));
    let last = count(len.saturating_sub(u64::from(params)));
    let head = match rng.below(9) {
        0 => last.saturating_add(1),
        1 | 2 => last,
        3..=5 => below(rng, params.min(last)),
        6 => u16::MAX - below(rng, 2),
        _ => below(rng, last),
    };
    Request {
        head,
        params,
        locals,
        slots,
        ..base
    }
}

pub fn host(rng: &mut Rng, base: Request, stack: &Reading) -> Request {
    let whole = reach(rng, stack);
    let (head, larger) = split(rng, whole);
    let (params, results) = two(rng, larger);
    Request {
        head,
        params,
        results,
        ..base
    }
}

/// The size goes to one limit, the end of the parameters to another.
pub fn return_host(rng: &mut Rng, base: Request, stack: &Reading) -> Request {
    let larger = count(reach(rng, stack));
    let (params, results) = two(rng, larger);
    let len = stack.state.len.saturating_sub(top_start(stack));
    let last = count(len.saturating_sub(u64::from(params)));
    let head = match rng.below(9) {
        0 => last.saturating_add(1),
        1 | 2 => last,
        3 => u16::MAX - below(rng, 2),
        _ => below(rng, last.min(3)),
    };
    Request {
        head,
        params,
        results,
        ..base
    }
}

/// Parameters and results of which the larger is the given count; the parameters are seldom many.
pub fn two(rng: &mut Rng, larger: u16) -> (u16, u16) {
    let other = below(rng, larger.min(3));
    if rng.once_in(2) { (larger, other) } else { (other, larger) }
}

pub fn set_head(rng: &mut Rng, stack: &Reading) -> u16 {
    let end = count(stack.state.len.saturating_sub(top_start(stack)));
    if rng.once_in(8) { end } else { below(rng, end.saturating_sub(1)) }
}
