//! Registers by their bits, through every request and a replay, accepted and refused: NaNs, infinities, subnormals, zeros of both signs.
//!
//! At the table the bits of ours are compared with the Rust's own register fields after each step.

mod floats;
mod path;

use self::floats::{DOUBLE, SINGLE};
use crate::case::{Start, Step, Task};
use crate::leaves::cases::OPENING;
use crate::leaves::count::Compared;
use crate::leaves::seat::Seat;
use crate::plain::{Regs, Replay, State};
use crate::reading::{RECORD_BYTES, Reading, write_record};

pub fn compared() -> Compared {
    let mut compared = 0;
    for regs in all_registers() {
        compared += through_requests(regs)?;
        compared += through_a_replay(regs)?;
        compared += through_a_refusal(regs)?;
    }
    Ok(compared)
}

/// Every notable single beside every notable double, then every single bit of a payload.
fn all_registers() -> Vec<Regs> {
    let (singles, doubles) = (SINGLE.notable(), DOUBLE.notable());
    let pairs = singles
        .iter()
        .flat_map(|single| doubles.iter().map(move |double| (*single, *double)));
    let (single_bits, double_bits) = (SINGLE.payload_bits(), DOUBLE.payload_bits());
    let payloads = single_bits.iter().cycle().copied().zip(double_bits);
    let regs = |(single, double): (u64, u64)| Regs {
        ireg: double.rotate_left(7) ^ single,
        freg32: single as u32,
        freg64: double,
    };
    pairs.chain(payloads).map(regs).collect()
}

/// Stored once, kept by everything up to the reset, and zeros after it.
fn through_requests(regs: Regs) -> Compared {
    let mut seat = Seat::new(Start::Open(OPENING))?;
    seat.take(Step::Registers(regs), 0)?;
    each(&mut seat, path::kept(), regs)?;
    each(&mut seat, path::emptied(), Regs::default())?;
    Ok(seat.count.compared)
}

/// Each step gets its number and leaves these registers.
fn each(seat: &mut Seat, steps: Vec<(Step, u64)>, regs: Regs) -> Result<(), String> {
    for (step, number) in steps {
        seat.take(step, number)?;
        seat.same(seat.now().state.regs, regs, "the registers")?;
    }
    Ok(())
}

/// The same requests as records of a trace, with a bad one and a short one; then a reset as a record.
fn through_a_replay(regs: Regs) -> Compared {
    let (words, cells) = OPENING.buffers();
    let mut stack = Reading::open(OPENING.bytes, OPENING.depth, words, cells).1;
    stack.state.regs = regs;
    let mut seat = Seat::new(given(stack))?;
    let mut trace = records(&path::kept());
    let number = trace.len() as u64 / RECORD_BYTES as u64;
    trace.extend([0xff; RECORD_BYTES + 1]);
    seat.take(replay(trace, 0, 0), 0)?;
    seat.same(seat.now().state.regs, regs, "the registers")?;
    seat.take(replay(records(&path::emptied()), number + 2, 1), 0)?;
    seat.same(seat.now().state.regs, Regs::default(), "the registers")?;
    Ok(seat.count.compared)
}

/// A broken state refuses other registers and keeps its own.
fn through_a_refusal(regs: Regs) -> Compared {
    let state = State {
        depth: 1,
        regs,
        ..State::default()
    };
    let mut seat = Seat::new(given(Reading {
        state,
        words: Vec::new(),
        cells: Vec::new(),
    }))?;
    let other = Regs {
        ireg: !regs.ireg,
        freg32: !regs.freg32,
        freg64: !regs.freg64,
    };
    let refused = [Step::Registers(other), path::reset(), path::restore()].map(|step| (step, 9));
    each(&mut seat, refused.to_vec(), regs)?;
    Ok(seat.count.compared)
}

fn given(stack: Reading) -> Start {
    Start::Given {
        state: stack.state,
        words: stack.words,
        cells: stack.cells,
    }
}

fn replay(trace: Vec<u8>, number: u64, spent: u64) -> Step {
    let run = Replay {
        number,
        fuel: u64::MAX,
        spent,
        stopped: None,
    };
    Step::Trace(Task::Replay(run), trace)
}

fn records(steps: &[(Step, u64)]) -> Vec<u8> {
    let record = |step: &Step| {
        let mut bytes = [0; RECORD_BYTES];
        match step {
            Step::Ask(q) => (write_record(&mut bytes, 0, q) == 0).then_some(bytes),
            _ => None,
        }
    };
    steps.iter().filter_map(|(step, _)| record(step)).flatten().collect()
}
