//! Replay: records one after another, each with its answer and its cost, as far as the fuel goes.

use super::{RECORD_BYTES, Reading, read_record};
use crate::plain::{Answer, Flagged, Replay, Request, anew, said};

/// Replays a whole trace, or up to where the fuel does not cover a record; `line` gets the answer of each one replayed.
pub fn replay(stack: &mut Reading, mut run: Replay, trace: &[u8], mut line: impl FnMut(&Answer, &Reading)) -> Replay {
    for record in trace.chunks(RECORD_BYTES) {
        if run.stopped.is_some() {
            return run;
        }
        let before = stack.clone();
        let (answer, cost) = answered(stack, record);
        if u128::from(run.spent) + u128::from(cost) > u128::from(run.fuel) {
            *stack = before;
            return Replay {
                stopped: Some(cost),
                ..run
            };
        }
        line(&answer, stack);
        run = Replay {
            number: run.number.wrapping_add(1),
            spent: run.spent + cost,
            ..run
        };
    }
    run
}

/// How a flag and the number beside it come back from a replay: as they came where they still say what is so, else anew.
pub fn handed_back(came: Flagged, after: Option<u64>) -> Flagged {
    if said(came) == after { came } else { anew(after) }
}

/// What a record of 40 bytes, or a short last one, gives and costs.
fn answered(stack: &mut Reading, record: &[u8]) -> (Answer, u64) {
    let Some(q) = read_record(record, 0) else {
        return (Answer::of(10), 1);
    };
    let answer = stack.ask(&q);
    (answer, cost(&q, answer.accepted()))
}

/// 1, and with an accepted record 1 for each cell zeroed or copied.
fn cost(q: &Request, accepted: bool) -> u64 {
    let cells = match q.kind {
        1 => u64::from(q.locals - q.params.min(q.locals)),
        3 => u64::from(q.locals),
        5 => u64::from(q.params),
        _ => 0,
    };
    if accepted { 1 + cells } else { 1 }
}
