//! The three limits of a state, each alone at its end and one above it, over buffers that are long enough: only the limit can refuse.

use super::{Failure, Tally, run};
use crate::case::{Case, FRAME_WORDS, Start, Step};
use crate::plain::{HostFrame, KINDS, Regs, Request, State};

const DEPTH: u64 = 65_536;
const CELLS: u64 = 1_048_576;

pub fn limits() -> Result<Tally, Failure> {
    let mut tally = Tally::default();
    let small = (2, 8, 8);
    for (depth, height, cells) in [
        small,
        (DEPTH, 8, 8),
        (DEPTH + 1, 8, 8),
        (2, CELLS, 8),
        (2, CELLS + 1, 8),
        (2, 8, CELLS),
        (2, 8, CELLS + 1),
    ] {
        run(&everything(depth, height, cells), &mut tally)?;
    }
    Ok(tally)
}

/// Every request once on an empty stack of these sizes.
fn everything(depth: u64, height: u64, cells: u64) -> Case {
    let words = FRAME_WORDS * depth;
    let state = State {
        depth,
        height,
        words,
        cells,
        ..State::default()
    };
    let request = |kind| Request {
        kind,
        slots: 1,
        instance: Some(1),
        ..Request::default()
    };
    let kinds = (1..=KINDS.len() as u64).map(|kind| Step::Ask(request(kind)));
    let part = Step::Part {
        frame: HostFrame::default(),
        write: None,
    };
    let steps = kinds.chain([Step::Registers(Regs::default()), part]).collect();
    Case {
        start: Start::Given {
            state,
            words: vec![0; words as usize],
            cells: vec![0; cells as usize],
        },
        steps,
    }
}
