//! Host part 9, 11. Both counts 0 are the empty part, whatever start and end are. It reads no frame and changes nothing.

use super::super::claims::{asked, expect, opened};
use super::super::kinds::{IP, host, push};
use crate::plain::{HostFrame, State};
use crate::vectors::maker::{Made, Maker};

const LAST: u64 = u64::MAX;

const fn frame(start: u64, end: u64, params: u16, results: u16) -> HostFrame {
    HostFrame {
        start,
        end,
        params,
        results,
    }
}

/// What is shown, with `len` 10, and the host frames that are asked for, each with its number.
type Group = (&'static str, &'static [(HostFrame, u64)]);

const GROUPS: &[Group] = &[
    (
        "part: inside, at the beginning and at the end of 10 cells it is lent; beyond the end 11",
        &[
            (frame(4, 7, 3, 2), 0),
            (frame(0, 3, 3, 2), 0),
            (frame(7, 10, 3, 2), 0),
            (frame(0, 10, 10, 0), 0),
            (frame(8, 11, 3, 2), 11),
            (frame(LAST - 3, LAST, 3, 2), 11),
        ],
    ),
    (
        "part: 11 where the size is not the larger count: one less, one more, none",
        &[(frame(4, 6, 3, 2), 11), (frame(4, 8, 3, 2), 11), (frame(4, 4, 3, 2), 11)],
    ),
    (
        "part: 11 where the end lies below the start, also where the difference would wrap to the size",
        &[(frame(4, 3, 3, 2), 11), (frame(5, 2, 3, 1), 11), (frame(LAST, 2, 3, 2), 11)],
    ),
    (
        "part: the larger count is the size: more results, results alone, parameters alone",
        &[
            (frame(4, 9, 2, 5), 0),
            (frame(4, 6, 2, 5), 11),
            (frame(4, 9, 0, 5), 0),
            (frame(4, 4, 0, 5), 11),
            (frame(4, 9, 5, 0), 0),
            (frame(4, 4, 5, 0), 11),
        ],
    ),
    (
        "part: both counts 0 are the empty part, whatever start and end are",
        &[
            (frame(4, 4, 0, 0), 0),
            (frame(4, 5, 0, 0), 0),
            (frame(11, 11, 0, 0), 0),
            (frame(LAST, 0, 0, 0), 0),
            (frame(0, LAST, 0, 0), 0),
        ],
    ),
];

pub fn make(maker: &mut Maker) -> Made<()> {
    nine_first(maker)?;
    maker.says("part: a stack with 10 cells in use");
    opened(maker, [80, 2, 8, 10])?;
    asked(maker, &push(None, [0, 0, 0, 10]), 0)?;
    for (words, frames) in GROUPS {
        maker.says(words);
        frames.iter().try_for_each(|(frame, number)| lent(maker, frame, *number))?;
    }
    bound_by_len(maker)?;
    handed_out(maker)
}

/// An accepted part begins at the frame's start and has as many cells as its size; a refused or empty one is zeros.
fn lent(maker: &mut Maker, frame: &HostFrame, number: u64) -> Made<()> {
    let part = maker.part(frame)?;
    let size = u64::from(frame.params.max(frame.results));
    let (offset, cells) = match (number, size) {
        (11, _) | (_, 0) => (0, (0, 0)),
        _ => (frame.start, (frame.params.into(), size)),
    };
    expect(format!("{frame:?}"), (part.number, part.offset, part.part), (number, offset, cells))
}

fn nine_first(maker: &mut Maker) -> Made<()> {
    maker.says("part: 9 before 11: `len` above L, then not; with both counts 0 too");
    opened(maker, [80, 1, 4, 6])?;
    let good = *maker.state();
    let broken = State { len: 7, ..good };
    for (state, numbers) in [(broken, [9, 9]), (good, [11, 0])] {
        maker.give(state, 4, 6);
        for (frame, number) in [frame(0, 1, 1, 0), frame(0, 0, 0, 0)].iter().zip(numbers) {
            expect("9 first", maker.part(frame)?.number, number)?;
        }
    }
    Ok(())
}

fn bound_by_len(maker: &mut Maker) -> Made<()> {
    maker.says("part: the end is bound by `len` 6, not by L 10: up to 6 it is lent, up to 7 refused");
    opened(maker, [96, 2, 8, 10])?;
    asked(maker, &push(None, [0, 0, 0, 6]), 0)?;
    lent(maker, &frame(3, 6, 3, 1), 0)?;
    lent(maker, &frame(4, 7, 3, 1), 11)?;
    maker.says("part: with no cell in use only the empty part is lent");
    opened(maker, [80, 0, 0, 4])?;
    lent(maker, &frame(0, 1, 1, 0), 11)?;
    lent(maker, &frame(1, 1, 0, 0), 0)
}

fn handed_out(maker: &mut Maker) -> Made<()> {
    maker.says("part: the frame that host hands out: 2 parameters to read at 5, 3 cells for results");
    opened(maker, [96, 2, 8, 10])?;
    asked(maker, &push(None, [0, 0, 0, 6]), 0)?;
    let frame = asked(maker, &host(IP, [5, 2, 3]), 0)?.host;
    lent(maker, &frame, 0)
}
