//! A million tail calls in one frame, with syncs, sets, restores and register syncs among them, accepted or refused. What document 02 says of
//! them (T-13) is worked out beside the run, and the reading and every party are held to it.

use super::worlds::Worlds;
use crate::case::{FRAME_WORDS, Opening, Step};
use crate::party::Rust;
use crate::peak;
use crate::plain::{Answer, Regs, Request};
use crate::rng::Rng;
use std::collections::BTreeSet;

/// So many accepted tail calls; in the first half none names an instance other than `FIRST`.
const CALLS: u64 = 1_000_000;
/// The instance that is current at the start.
const FIRST: u64 = 7;
const OTHER: u64 = 8;
/// The caller's frame has so many cells, and the frame of the tail calls starts behind it.
const START: u64 = 16;
/// After so many steps the whole memory is compared; after so many calls the peak of memory is read for the first time.
const ROUND: u64 = 10_000;
/// What the peak may grow by after that: half a bit for each tail call.
const MOST_KIB: u64 = 64;

/// Of each there is one at least.
const REFUSALS: [u64; 4] = [2, 3, 5, 7];

/// Cells are lent up to a little below the height limit, so that a frame too wide is refused with 2 or with 3.
const OPENING: Opening = Opening {
    bytes: 8 * 3_000,
    depth: 4,
    words: FRAME_WORDS * 4,
    cells: 2_900,
    fill: 1,
};

struct Tails {
    worlds: Worlds,
    rng: Rng,
    /// The rows of the older frames, as the run began.
    older: Vec<u64>,
    accepted: u64,
    len: u64,
    owed: Option<u64>,
    /// The numbers that were refused with.
    refusals: BTreeSet<u64>,
}

/// How many requests there were.
pub fn run() -> Result<u64, String> {
    Ok(within_memory()? + beside_the_rust()?)
}

/// Without the Rust: its driver keeps all that it was asked.
fn within_memory() -> Result<u64, String> {
    let mut tails = Tails::open(Worlds::among(&OPENING, |name| name != Rust::NAME)?)?;
    tails.calls(ROUND)?;
    let peak = peak::kib("self")?;
    tails.calls(CALLS)?;
    match peak::kib("self")? - peak {
        ..=MOST_KIB => tails.ended(),
        grown => Err(format!("{CALLS} tail calls: the peak of memory has grown by {grown} KiB")),
    }
}

fn beside_the_rust() -> Result<u64, String> {
    let mut tails = Tails::open(Worlds::open(&OPENING)?)?;
    tails.calls(CALLS)?;
    tails.ended()
}

impl Tails {
    /// A caller's frame, and above it the frame of the tail calls, without a debt.
    fn open(mut worlds: Worlds) -> Result<Self, String> {
        let frame = Request {
            kind: 1,
            slots: START as u16,
            ..Request::default()
        };
        let caller = Request {
            instance: Some(FIRST),
            ..frame
        };
        let callee = Request {
            head: START as u16,
            caller: Some(100),
            ..frame
        };
        for (offset, push) in [(0, caller), (START, callee)] {
            let wanted = Answer {
                offset,
                ..Answer::default()
            };
            worlds.take(&Step::Ask(push), wanted)?;
        }
        let older = worlds.reading.words[..FRAME_WORDS as usize].to_vec();
        Ok(Self {
            worlds,
            rng: Rng::new(13),
            older,
            accepted: 0,
            len: 2 * START,
            owed: None,
            refusals: BTreeSet::new(),
        })
    }

    /// Up to so many accepted tail calls.
    fn calls(&mut self, calls: u64) -> Result<(), String> {
        while self.accepted < calls {
            self.step()?;
        }
        Ok(())
    }

    fn step(&mut self) -> Result<(), String> {
        let step = self.any();
        let answer = self.worlds.answer(&step)?;
        match &step {
            _ if !answer.accepted() => _ = self.refusals.insert(answer.number),
            Step::Ask(q @ Request { kind: 3, .. }) => self.count(q),
            _ => {}
        }
        self.as_said()
            .map_err(|what| format!("step {}, {step:?}: {what}", self.worlds.steps))?;
        match self.worlds.steps.is_multiple_of(ROUND) {
            true => self.worlds.alike(),
            false => Ok(()),
        }
    }

    /// An accepted tail call: the largest end so far, where it has slots; and the debt from the first that names another instance on.
    fn count(&mut self, q: &Request) {
        self.accepted += 1;
        if q.slots > 0 {
            self.len = self.len.max(START + u64::from(q.slots));
        }
        if q.instance.is_some_and(|named| named != FIRST) {
            self.owed = Some(FIRST);
        }
    }

    /// Depth, `len`, top start, debt and the older frames are as document 02 says.
    fn as_said(&self) -> Result<(), String> {
        let reading = &self.worlds.reading;
        let row = FRAME_WORDS as usize;
        let (older, top) = reading.words.split_at(row);
        let found = (reading.state.count, reading.state.len, top[1], (top[2] != 0).then_some(top[3]));
        let wanted = (2, self.len, START, self.owed);
        match (found == wanted, older == self.older) {
            (true, true) => Ok(()),
            (true, false) => Err("an older frame has changed".to_string()),
            _ => Err(format!("depth, len, start and debt are {found:?}, not {wanted:?}")),
        }
    }

    /// Mostly a tail call.
    fn any(&mut self) -> Step {
        let ip = self.rng.below(1_000);
        let head = self.rng.below(3_000) as u16;
        match self.rng.below(20) {
            0 => Step::Ask(kind(6, |q| q.caller = Some(ip))),
            1 => Step::Ask(kind(7, |_| ())),
            2 => Step::Ask(kind(9, |q| (q.head, q.callee) = (head, ip))),
            3 => Step::Registers(Regs {
                ireg: ip,
                ..Regs::default()
            }),
            _ => Step::Ask(self.tail_call(ip)),
        }
    }

    /// Some are refused: of each count one more than fits, parameters beyond `len`, a frame beyond a limit. A refused one may name any instance.
    fn tail_call(&mut self, callee: u64) -> Request {
        let wide = self.rng.once_in(1_000);
        let slots = self.rng.below(if wide { 3_100 } else { 40 }) as u16;
        let locals = self.rng.below(u64::from(slots) + 1) as u16;
        let params = self.rng.below(u64::from(locals) + 1) as u16;
        let bad = self.rng.once_in(10);
        let named = bad || 2 * self.accepted >= CALLS;
        kind(3, |q| {
            q.callee = callee;
            q.head = self.rng.below(40) as u16;
            q.params = if bad { locals + 1 } else { params };
            q.locals = locals;
            q.slots = slots;
            q.instance = self.rng.pick(&[None, Some(FIRST), if named { Some(OTHER) } else { None }]);
        })
    }

    /// One return makes the first instance current again. How many requests there were.
    fn ended(&mut self) -> Result<u64, String> {
        let given = 9;
        let pop = kind(2, |q| q.instance = Some(given));
        let wanted = Answer {
            ip: 100,
            instance: self.owed.unwrap_or(given),
            ..Answer::default()
        };
        self.worlds.take(&Step::Ask(pop), wanted)?;
        self.worlds.alike()?;
        let current = self.worlds.reading.state.current;
        if current != Some(FIRST) {
            return Err(format!("the return makes {current:?} current, not {FIRST}"));
        }
        match self.refusals.iter().eq(&REFUSALS) {
            true => Ok(self.worlds.steps),
            false => Err(format!(
                "the refusals among the tail calls were {:?}, not {REFUSALS:?}",
                self.refusals
            )),
        }
    }
}

fn kind(kind: u64, set: impl FnOnce(&mut Request)) -> Request {
    let mut request = Request {
        kind,
        ..Request::default()
    };
    set(&mut request);
    request
}
