//! The next step of a walk, chosen with the stack in view. It is its own: the vectors must not change with the random traces.

use super::moves::Move;
use super::nine::top_start;
use crate::plain::{HostFrame, Request};
use crate::reading::Reading;
use crate::rng::Rng;

/// How often each move comes: the nine kinds, register sync, host part.
type Mood = [u64; 11];

pub const MOODS: [(&str, Mood); 5] = [
    ("deep calls", [24, 1, 1, 2, 0, 1, 1, 0, 6, 1, 0]),
    ("sets and tail calls", [4, 1, 14, 1, 1, 1, 1, 0, 14, 0, 1]),
    ("host calls", [4, 1, 1, 12, 3, 1, 1, 0, 4, 1, 10]),
    ("returns, and everything else", [5, 9, 3, 3, 6, 2, 2, 1, 4, 1, 2]),
    ("calls again, with resets", [12, 4, 4, 4, 4, 1, 2, 2, 6, 1, 2]),
];

/// Ips, instances and cells, told apart by their bits alone.
const NUMBERS: [u64; 9] = [
    0,
    1,
    2,
    3,
    1 << 63,
    u64::MAX,
    0x7ff0_0000_0000_0001,
    0xfff8_0000_0000_0000,
    0x7ff0_0000_0000_0000,
];

pub struct Walker {
    rng: Rng,
    /// The last host frame that was handed back.
    pub host: HostFrame,
}

impl Walker {
    pub fn new(seed: u64) -> Self {
        Self {
            rng: Rng::new(seed),
            host: HostFrame::default(),
        }
    }

    /// Without a frame most often a push, since nearly all else is refused.
    pub fn next(&mut self, mood: &Mood, world: &Reading) -> Move {
        if world.state.count == 0 && self.rng.below(4) > 0 {
            return Move::Ask(self.request(1, world));
        }
        let mut at = self.rng.below(mood.iter().sum());
        let passed = |weight: &&u64| {
            let over = at >= **weight;
            at = at.saturating_sub(**weight);
            over
        };
        match mood.iter().take_while(passed).count() {
            9 => Move::integer(self.number()),
            10 => Move::Part(self.part(world)),
            kind => Move::Ask(self.request(kind as u64 + 1, world)),
        }
    }

    fn number(&mut self) -> u64 {
        if self.rng.once_in(4) {
            self.rng.next()
        } else {
            self.rng.pick(&NUMBERS)
        }
    }

    fn request(&mut self, kind: u64, world: &Reading) -> Request {
        let base = Request {
            kind,
            ..Request::default()
        };
        let counted = match kind {
            1 => self.push_counts(base, world),
            3 => self.replace_counts(base, world),
            4 | 5 => self.host_counts(base, world),
            9 => Request {
                head: self.below(room(world, world.state.len)),
                ..base
            },
            _ => base,
        };
        let over_frame = (world.state.count > 0) ^ self.rng.once_in(12);
        let caller = kind == 6 || (matches!(kind, 1 | 4) && over_frame);
        let instance = matches!(kind, 2 | 5) || (matches!(kind, 1 | 3) && !self.rng.once_in(3));
        Request {
            caller: caller.then(|| self.number()),
            callee: if matches!(kind, 1 | 3 | 9) { self.number() } else { 0 },
            instance: instance.then(|| self.number()),
            ..counted
        }
    }

    /// Up to the number, both ends more often than the rest, and now and then one more.
    fn below(&mut self, end: u16) -> u16 {
        match self.rng.below(8) {
            0 => end.saturating_add(1),
            1 => end,
            _ => self.rng.below(u64::from(end) + 1) as u16,
        }
    }

    /// A size: small, or up to one of the three lengths.
    fn size(&mut self, world: &Reading) -> u16 {
        let s = &world.state;
        let end = self.rng.pick(&[s.height, s.cells, s.len]);
        if self.rng.once_in(3) {
            self.below(room(world, end))
        } else {
            self.rng.below(5) as u16
        }
    }

    /// params ≤ locals ≤ slots, mostly.
    fn ordered(&mut self, slots: u16) -> (u16, u16) {
        let locals = self.rng.below(u64::from(slots) + 1) as u16;
        let params = self.rng.below(u64::from(locals) + 1) as u16;
        match self.rng.below(24) {
            0 => (params, slots.saturating_add(1)),
            1 => (locals.saturating_add(1), locals),
            _ => (params, locals),
        }
    }

    fn push_counts(&mut self, base: Request, world: &Reading) -> Request {
        let whole = self.size(world);
        let head = if self.rng.once_in(2) {
            self.rng.below(u64::from(whole) + 1) as u16
        } else {
            0
        };
        let slots = whole - head;
        let (params, locals) = self.ordered(slots);
        let head = if slots == 0 && !self.rng.once_in(6) { 0 } else { head };
        Request {
            head,
            params,
            locals,
            slots,
            ..base
        }
    }

    /// The parameters overlap their new place, end where the cells end, or lie anywhere.
    fn replace_counts(&mut self, base: Request, world: &Reading) -> Request {
        let slots = self.size(world);
        let (params, locals) = self.ordered(slots);
        let last = room(world, world.state.len).max(slots).saturating_sub(params);
        let head = if self.rng.once_in(2) {
            self.rng.below(u64::from(params.min(last)) + 1) as u16
        } else {
            self.below(last)
        };
        Request {
            head,
            params,
            locals,
            slots,
            ..base
        }
    }

    fn host_counts(&mut self, base: Request, world: &Reading) -> Request {
        let (larger, other) = (self.size(world), self.rng.below(4) as u16);
        let (params, results) = if self.rng.once_in(2) {
            (larger, other.min(larger))
        } else {
            (other.min(larger), larger)
        };
        let last = room(world, world.state.len).saturating_sub(params);
        Request {
            head: if self.rng.once_in(3) {
                self.below(last)
            } else {
                self.rng.below(3) as u16
            },
            params,
            results,
            ..base
        }
    }

    /// The last host frame, or one that is wrong by a little or by a lot.
    fn part(&mut self, world: &Reading) -> HostFrame {
        let mut frame = self.host;
        match self.rng.below(12) {
            0 => frame.end = frame.end.wrapping_add(1),
            1 => frame.start = frame.start.wrapping_sub(1),
            2 => (frame.params, frame.results) = (0, 0),
            3 => (frame.start, frame.end) = (frame.end, frame.start),
            4 => (frame.start, frame.end) = (self.number(), self.number()),
            5 => {
                frame = HostFrame {
                    start: 0,
                    end: world.state.len,
                    params: u16::try_from(world.state.len).unwrap_or(u16::MAX),
                    results: 0,
                }
            }
            _ => {}
        }
        frame
    }
}

/// How many cells lie between the top start and an end.
fn room(world: &Reading, end: u64) -> u16 {
    let start = top_start(world).unwrap_or(0);
    u16::try_from(u128::from(end).saturating_sub(start)).unwrap_or(u16::MAX)
}
