//! A trace of six records: two are bad, and the last is short.

use super::pair::Whole;
use crate::example::{NOTHING, P, Q};
use crate::plain::{Replay, Request};
use crate::reading::{RECORD_BYTES, Reading, write_record};

/// 3 for P, 2 for Q, 4 for the tail call, 1 for each other record.
const COST: u64 = 12;
/// Fuel that suffices.
const ENOUGH: u64 = 1_000;

const TAIL_CALL: Request = Request {
    kind: 3,
    head: 1,
    params: 1,
    locals: 3,
    slots: 3,
    callee: 300,
    instance: Some(1),
    ..NOTHING
};

const SHORT: usize = 17;

pub struct Six {
    pub trace: Vec<u8>,
    pub stack: Reading,
}

/// A trace with so much fuel, and what it comes to at once.
pub struct Fuelled {
    pub run: Replay,
    pub whole: Whole,
}

impl Six {
    /// No two words or cells are alike.
    pub fn new() -> Self {
        let (words, cells) = ((100..112).collect(), (200..210).collect());
        Self {
            trace: [
                &record(P)[..],
                &bad(1),
                &record(Q),
                &record(TAIL_CALL),
                &bad(2),
                &record(P)[..SHORT],
            ]
            .concat(),
            stack: Reading::open(80, 3, words, cells).1,
        }
    }

    /// So many bytes of the trace with fuel that suffices, and with each from 0 to one more than all of it costs: so it stops before each
    /// record, and not at all.
    pub fn fuelled(&self, bytes: usize) -> Result<Vec<Fuelled>, String> {
        let with = |fuel| {
            let run = Replay { fuel, ..Replay::default() };
            let whole = Whole::of(&self.stack, &run, &self.trace[..bytes])?;
            Ok(Fuelled { run, whole })
        };
        (0..=COST + 1).chain([ENOUGH]).map(with).collect()
    }
}

fn record(q: Request) -> [u8; RECORD_BYTES] {
    let mut record = [0; RECORD_BYTES];
    write_record(&mut record, 0, &q);
    record
}

/// No kind has flags of 4; and no bytes are alike, so that each has to be in its place.
fn bad(kind: u8) -> [u8; RECORD_BYTES] {
    let mut record: [u8; RECORD_BYTES] = std::array::from_fn(|at| 50 + at as u8);
    (record[0], record[1]) = (kind, 4);
    record
}

#[cfg(test)]
mod tests {
    use super::{COST, Six};
    use crate::plain::Replay;
    use crate::reading::replay;

    /// By the reading: two bad records, and all that the trace costs.
    #[test]
    fn what_the_six_records_are() {
        let Six { trace, mut stack } = Six::new();
        let (run, mut numbers) = (
            Replay {
                fuel: COST,
                ..Replay::default()
            },
            Vec::new(),
        );
        let run = replay(&mut stack, run, &trace, |answer, _| numbers.push(answer.number));
        assert_eq!(numbers, [0, 10, 0, 0, 10, 10]);
        assert_eq!((run.number, run.spent, run.stopped), (6, COST, None));
    }
}
