//! Up and down again: frames of 16 cells up to full depth, what stands at the ends, and all of it popped again. What is wanted is arithmetic.

use super::worlds::Worlds;
use crate::case::{Opening, Step};
use crate::plain::{Answer, HostFrame, Request};
use crate::reading::{RECORD_BYTES, write_record};
use cattlecleat::raw;

pub const DEPTH: u64 = 65_536;
pub const CELLS: u64 = 1_048_576;
/// So many cells a frame, so that the last frame ends at the last cell.
const SLOTS: u16 = (CELLS / DEPTH) as u16;
const PARAMS: u16 = 2;
const LOCALS: u16 = 10;

pub struct Climb {
    worlds: Worlds,
    opening: Opening,
    pushed: Vec<Request>,
}

/// Where a frame starts.
fn start(frame: u64) -> u64 {
    frame * u64::from(SLOTS)
}

/// The ip that a frame's caller is left at.
fn caller_ip(frame: u64) -> u64 {
    1_000_000 + frame
}

/// Every other frame changes the instance.
fn instance(frame: u64) -> u64 {
    frame / 2
}

fn debt(frame: u64) -> Option<u64> {
    (frame > 0 && frame.is_multiple_of(2)).then(|| instance(frame - 1))
}

fn at_offset(offset: u64) -> Answer {
    Answer {
        offset,
        ..Answer::default()
    }
}

fn counts(kind: u64, head: u16, results: u16, slots: u16) -> Request {
    Request {
        kind,
        head,
        results,
        slots,
        ..Request::default()
    }
}

fn push(frame: u64, slots: u16) -> Request {
    Request {
        kind: 1,
        head: if frame == 0 { 0 } else { SLOTS },
        params: PARAMS,
        locals: LOCALS,
        slots,
        caller: (frame > 0).then(|| caller_ip(frame)),
        callee: 2_000_000 + frame,
        instance: Some(instance(frame)),
        ..Request::default()
    }
}

impl Climb {
    pub fn open(opening: &Opening) -> Result<Self, String> {
        Ok(Self {
            worlds: Worlds::open(opening)?,
            opening: *opening,
            pushed: Vec::new(),
        })
    }

    pub fn requests(&self) -> u64 {
        self.worlds.steps
    }

    fn depth(&self) -> u64 {
        self.worlds.reading.state.count
    }

    fn ask(&mut self, request: Request, wanted: Answer) -> Result<(), String> {
        self.worlds.take(&Step::Ask(request), wanted)
    }

    /// So many frames more.
    pub fn pushes(&mut self, frames: u64) -> Result<(), String> {
        for _ in 0..frames {
            self.wider_push(SLOTS, 0)?;
        }
        self.worlds.alike()
    }

    /// A frame of so many cells, which gets this number.
    pub fn wider_push(&mut self, slots: u16, number: u64) -> Result<(), String> {
        let frame = self.depth();
        let request = push(frame, slots);
        if number > 0 {
            return self.ask(request, Answer::of(number));
        }
        self.pushed.push(request);
        self.ask(request, at_offset(start(frame)))
    }

    /// A frame that needs no cell is refused for the depth alone.
    pub fn at_full_depth(&mut self) -> Result<(), String> {
        let bare = Request {
            kind: 1,
            caller: Some(0),
            ..Request::default()
        };
        self.ask(bare, Answer::of(2))?;
        self.ask(push(DEPTH, SLOTS), Answer::of(2))
    }

    /// The top frame has so many cells, and they are the last. One more is refused with this number; the last one can be had.
    pub fn one_more_cell(&mut self, left: u16, number: u64) -> Result<(), String> {
        let top = start(self.depth() - 1);
        let wide = |kind| counts(kind, 0, left + 1, left + 1);
        let refused = [
            (counts(4, left, 1, 0), number),
            (wide(4), number),
            (wide(5), number),
            (wide(3), number),
            (counts(9, left, 0, 0), 7),
        ];
        for (request, number) in refused {
            self.ask(request, Answer::of(number))?;
        }
        self.ask(counts(9, left - 1, 0, 0), at_offset(top + u64::from(left) - 1))?;
        self.host_at_the_end(left, 0)?;
        self.host_at_the_end(left, 1)?;
        self.worlds.alike()
    }

    /// A host with so many results that end with the top frame's cells.
    fn host_at_the_end(&mut self, left: u16, results: u16) -> Result<(), String> {
        let top = start(self.depth() - 1);
        let end = top + u64::from(left);
        let host = HostFrame {
            start: end - u64::from(results),
            end,
            params: 0,
            results,
        };
        self.ask(counts(4, left - results, results, 0), Answer { host, ..at_offset(top) })?;
        self.part(host)
    }

    fn part(&mut self, frame: HostFrame) -> Result<(), String> {
        let results = u64::from(frame.results);
        let offset = if results == 0 { 0 } else { frame.start };
        let wanted = Answer {
            part: (0, results),
            ..at_offset(offset)
        };
        self.worlds.take(&Step::Part { frame, write: None }, wanted)
    }

    /// The same frames as records of one trace lead ours to the same end, with just enough fuel.
    pub fn as_a_trace(&self) -> Result<(), String> {
        let (mut words, mut cells) = self.opening.buffers();
        let state = raw::open(self.opening.bytes as usize, self.opening.depth as usize, &words, &cells).state;
        let fuel = DEPTH * u64::from(1 + LOCALS - PARAMS);
        let run = raw::Run {
            state,
            fuel,
            ..raw::Run::default()
        };
        let run = raw::replay(run, &mut words, &mut cells, &self.trace());
        let found = [
            run.number,
            run.spent,
            run.stop_flag,
            run.state.count as u64,
            run.state.len as u64,
            run.state.current,
        ];
        let wanted = [DEPTH, fuel, 0, DEPTH, CELLS, instance(DEPTH - 1)];
        // The last cell was set since the frames were pushed.
        let last = cells.len() - 1;
        let (reading, other) = (&self.worlds.reading, "as a trace the frames lead to other");
        match (found == wanted, words == reading.words, cells[..last] == reading.cells[..last]) {
            (true, true, true) => Ok(()),
            (false, _, _) => Err(format!("{other} numbers: {found:?}, not {wanted:?}")),
            (_, false, _) => Err(format!("{other} words")),
            _ => Err(format!("{other} cells")),
        }
    }

    fn trace(&self) -> Vec<u8> {
        let mut trace = vec![0; RECORD_BYTES * self.pushed.len()];
        for (i, request) in self.pushed.iter().enumerate() {
            write_record(&mut trace, (RECORD_BYTES * i) as u64, request);
        }
        trace
    }

    /// All frames go again, the last one with 1, and each answer is the frame below as it was left.
    pub fn pops(&mut self) -> Result<(), String> {
        for frame in (0..self.depth()).rev() {
            let given = 3_000_000 + frame;
            let below = Answer {
                ip: caller_ip(frame),
                instance: debt(frame).unwrap_or(given),
                ..at_offset(start(frame.saturating_sub(1)))
            };
            let wanted = if frame > 0 { below } else { Answer::of(1) };
            self.ask(pop(given), wanted)?;
        }
        self.ask(pop(0), Answer::of(4))?;
        self.worlds.alike()
    }
}

fn pop(given: u64) -> Request {
    Request {
        kind: 2,
        instance: Some(given),
        ..Request::default()
    }
}
