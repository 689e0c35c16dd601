//! The next step of a random trace, chosen with the state in view.

use super::counts;
use crate::case::Step;
use crate::plain::{HostFrame, Regs, Request};
use crate::reading::Reading;
use crate::rng::Rng;

/// How often each step comes: the nine kinds, register sync, host part.
pub type Mood = [u64; 11];

/// Even, deep calls, tail calls, host calls, calls and returns.
pub const MOODS: [Mood; 5] = [
    [6, 3, 4, 3, 2, 1, 1, 1, 4, 1, 2],
    [30, 2, 1, 1, 1, 1, 1, 0, 3, 0, 0],
    [4, 1, 20, 1, 1, 1, 1, 0, 14, 0, 1],
    [6, 1, 1, 12, 5, 1, 1, 0, 4, 1, 12],
    [10, 9, 1, 1, 1, 1, 1, 1, 4, 1, 1],
];

/// Ips, instances and cells that are told apart by bits alone: zeros of both signs, NaNs, infinities, ends.
const NUMBERS: [u64; 12] = [
    0,
    1,
    2,
    3,
    1 << 63,
    u64::MAX,
    0x7ff0_0000_0000_0001,
    0xfff0_0000_0000_0001,
    0x7ff8_0000_0000_0000,
    0xfff8_dead_beef_0001,
    0x7ff0_0000_0000_0000,
    u64::MAX - 7,
];
const FLOATS: [u32; 8] = [
    0,
    1 << 31,
    0x7f80_0001,
    0xff80_0001,
    0x7fc0_0000,
    0xffc1_2345,
    0x7f80_0000,
    u32::MAX,
];

/// Chooses a step, mostly a push where there is no frame. `host` is the last host frame that was handed back.
pub fn next(rng: &mut Rng, mood: &Mood, stack: &Reading, host: &HostFrame) -> Step {
    if stack.state.count == 0 && !rng.once_in(4) {
        return Step::Ask(request(rng, 1, stack));
    }
    let mut at = rng.below(mood.iter().sum());
    let mut passed = |weight: &u64| {
        let over = at >= *weight;
        at = at.wrapping_sub(*weight);
        over
    };
    match mood.iter().take_while(|weight| passed(weight)).count() {
        9 => Step::Registers(registers(rng)),
        10 => part(rng, stack, host),
        kind => Step::Ask(request(rng, kind as u64 + 1, stack)),
    }
}

fn number(rng: &mut Rng) -> u64 {
    if rng.once_in(8) { rng.next() } else { rng.pick(&NUMBERS) }
}

fn given(rng: &mut Rng, wanted: bool) -> Option<u64> {
    wanted.then(|| number(rng))
}

pub fn request(rng: &mut Rng, kind: u64, stack: &Reading) -> Request {
    let base = Request {
        kind,
        callee: number(rng),
        ..Request::default()
    };
    match kind {
        1 => Request {
            caller: caller(rng, stack),
            instance: instance(rng),
            ..counts::push(rng, base, stack)
        },
        3 => Request {
            instance: instance(rng),
            ..counts::replace(rng, base, stack)
        },
        9 => Request {
            head: counts::set_head(rng, stack),
            ..base
        },
        _ => without_callee(rng, Request { callee: 0, ..base }, stack),
    }
}

fn without_callee(rng: &mut Rng, base: Request, stack: &Reading) -> Request {
    match base.kind {
        2 => Request {
            instance: Some(number(rng)),
            ..base
        },
        4 => Request {
            caller: caller(rng, stack),
            ..counts::host(rng, base, stack)
        },
        5 => Request {
            instance: Some(number(rng)),
            ..counts::return_host(rng, base, stack)
        },
        6 => Request {
            caller: Some(number(rng)),
            ..base
        },
        _ => base,
    }
}

/// Mostly as it must be: given exactly over a frame.
fn caller(rng: &mut Rng, stack: &Reading) -> Option<u64> {
    let wanted = (stack.state.count > 0) ^ rng.once_in(16);
    given(rng, wanted)
}

fn instance(rng: &mut Rng) -> Option<u64> {
    let wanted = rng.below(3) > 0;
    given(rng, wanted)
}

fn registers(rng: &mut Rng) -> Regs {
    let freg32 = if rng.once_in(4) { rng.next() as u32 } else { rng.pick(&FLOATS) };
    Regs {
        ireg: number(rng),
        freg32,
        freg64: number(rng),
    }
}

/// The last host frame, mostly; or one that is wrong by a little, or by a lot.
fn part(rng: &mut Rng, stack: &Reading, host: &HostFrame) -> Step {
    let mut frame = *host;
    match rng.below(16) {
        0 => frame.end = frame.end.wrapping_add(1),
        1 => frame.start = frame.start.wrapping_add(1),
        2 => frame.params = frame.params.wrapping_add(1),
        3 => frame.results = frame.results.wrapping_sub(1),
        4 => (frame.start, frame.end) = (number(rng), number(rng)),
        5 => frame = whole(rng, stack),
        _ => {}
    }
    let cells = u64::from(frame.params.max(frame.results));
    let write = (cells > 0).then(|| (rng.below(cells), number(rng)));
    Step::Part { frame, write }
}

/// A frame that ends at `len`, or one above it.
fn whole(rng: &mut Rng, stack: &Reading) -> HostFrame {
    let end = stack.state.len.saturating_add(rng.below(2));
    let size = rng.below(4).min(end);
    let (params, results) = counts::two(rng, size as u16);
    HostFrame {
        start: end - size,
        end,
        params,
        results,
    }
}
