//! A whole trace in one call with fuel: ours, or C by hand.

use super::lent::Lent;
use super::side::{End, Side};
use super::trace::Trace;
use crate::reading::RECORD_BYTES;
use cattlecleat::raw;

/// `raw::replay`, or another one of its shape.
type Replay = fn(raw::Run, &mut [u64], &mut [u64], &[u8]) -> raw::Run;

pub struct Replayed {
    lent: Lent,
    replay: Replay,
}

impl Replayed {
    pub fn open(replay: Replay) -> Result<Self, String> {
        Ok(Self {
            lent: Lent::open()?,
            replay,
        })
    }
}

impl Side for Replayed {
    fn reset(&mut self) {
        self.lent.reset();
    }

    fn run(&mut self, trace: &Trace) -> Result<End, String> {
        let run = begun(&self.lent, trace);
        let run = (self.replay)(run, &mut self.lent.words, &mut self.lent.cells, &trace.bytes);
        ended(&mut self.lent, &run, trace)
    }
}

/// With fuel for exactly this trace.
pub fn begun(lent: &Lent, trace: &Trace) -> raw::Run {
    raw::Run {
        state: lent.state,
        fuel: trace.cost,
        ..raw::Run::default()
    }
}

/// Every record was accepted where all of the fuel is spent.
pub fn ended(lent: &mut Lent, run: &raw::Run, trace: &Trace) -> Result<End, String> {
    let records = (trace.bytes.len() / RECORD_BYTES) as u64;
    if (run.number, run.spent, run.stop_flag) != (records, trace.cost, 0) {
        return Err(format!("replayed to {run:?}, the cost is {}", trace.cost));
    }
    lent.state = run.state;
    Ok(lent.end(None))
}
