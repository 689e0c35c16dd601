//! `beside mission`: document 01's largest sizes, ours beside the Rust and the reading, within the memory that the mission has.
//!
//! Full depth, full length, one more of each refused, and every frame handed back as it was put down; and a million tail calls in one frame.

mod climb;
mod tails;
mod worlds;

use self::climb::{CELLS, Climb, DEPTH};
use self::worlds::Worlds;
use crate::case::{FRAME_WORDS, Opening};
use crate::command::Verdict;
use crate::command::said::{ready, said};
use crate::peak;

/// The memory that the whole program may have had at its peak.
const MOST_MIB: u64 = 512;

/// The largest opening there is.
const LARGEST: Opening = Opening {
    bytes: 8 * CELLS,
    depth: DEPTH,
    words: FRAME_WORDS * DEPTH,
    cells: CELLS,
    fill: 1,
};

pub fn run(args: &[String]) -> Verdict {
    ready(args)?;
    said(|| compared().map(|(requests, peak)| format!("mission: {requests} requests, sizes within {peak} MiB")))
}

/// How many requests and openings there were, and the peak of memory in MiB.
pub fn compared() -> Result<(u64, u64), String> {
    let requests = tails::run()? + openings()? + full()? + without_the_last_cell()?;
    let peak = peak::kib("self")?.div_ceil(1024);
    if peak > MOST_MIB {
        return Err(format!("the peak of memory is {peak} MiB, above {MOST_MIB}"));
    }
    Ok((requests, peak))
}

/// One more of each limit, and one word too few, is 14.
fn openings() -> Result<u64, String> {
    let beyond = [
        Opening {
            depth: DEPTH + 1,
            words: FRAME_WORDS * (DEPTH + 1),
            ..LARGEST
        },
        Opening {
            cells: CELLS + 1,
            ..LARGEST
        },
        Opening {
            bytes: 8 * CELLS + 1,
            ..LARGEST
        },
        Opening {
            words: FRAME_WORDS * DEPTH - 1,
            ..LARGEST
        },
    ];
    for opening in beyond {
        Worlds::refused(&opening, 14)?;
    }
    Ok(beyond.len() as u64)
}

/// The last push ends at full depth and full length together.
fn full() -> Result<u64, String> {
    let mut climb = Climb::open(&LARGEST)?;
    climb.pushes(DEPTH - 1)?;
    climb.wider_push(17, 2)?;
    climb.pushes(1)?;
    climb.at_full_depth()?;
    climb.one_more_cell(16, 2)?;
    climb.as_a_trace()?;
    climb.pops()?;
    Ok(climb.requests())
}

/// Where one cell less is lent, the last cell is refused with 3; where the height limit is one less, with 2. What is left can be had.
fn without_the_last_cell() -> Result<u64, String> {
    let lent = Opening {
        cells: CELLS - 1,
        ..LARGEST
    };
    let high = Opening {
        bytes: 8 * CELLS - 1,
        ..LARGEST
    };
    let mut requests = 0;
    for (opening, number) in [(lent, 3), (high, 2)] {
        let mut climb = Climb::open(&opening)?;
        climb.pushes(DEPTH - 1)?;
        climb.wider_push(17, 2)?;
        climb.wider_push(16, number)?;
        climb.wider_push(15, 0)?;
        climb.one_more_cell(15, number)?;
        climb.pops()?;
        requests += climb.requests();
    }
    Ok(requests)
}
