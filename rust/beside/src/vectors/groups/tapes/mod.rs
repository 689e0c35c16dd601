//! tapes: a trace that comes in blocks (document 02, T-01).

mod bad;
mod by_hand;
mod cuts;
mod ends;
mod example;
mod stops;

use super::claims::{expect, opened};
use super::replays::lay;
use super::replays::records::EXAMPLE;
use crate::plain::{Flagged, anew};
use crate::reading::{Reading, StraightTape};
use crate::vectors::desk::NO_TAPE;
use crate::vectors::maker::{Made, Maker};
use std::ops::Range;

/// M and L 5, D 2: what the example needs.
const WORLD: [u64; 4] = [40, 2, 8, 5];

pub fn make(maker: &mut Maker) -> Made<()> {
    maker.file(
        "tapes",
        "Traces in blocks: bad records across a cut, and document 01's example in blocks of 1 to 80 bytes.",
    );
    bad::make(maker)?;
    example::make(maker)?;
    maker.file(
        "tapes-2",
        "Traces in blocks: every cut of two records, empty blocks, short records, ends, stops, what comes after these, and tapes made by hand.",
    );
    maker.sums();
    cuts::make(maker)?;
    maker.says("document 01's example, whose records cost 3, 2, 1, 1 and 1");
    lay(maker, &EXAMPLE);
    ends::make(maker)?;
    stops::make(maker)?;
    by_hand::make(maker)
}

/// A tape that begins, with so much fuel.
fn begun(fuel: u64) -> StraightTape {
    StraightTape { fuel, ..NO_TAPE }
}

/// Over a stack just opened.
fn stand(maker: &mut Maker, tape: StraightTape) -> Made<()> {
    opened(maker, WORLD)?;
    maker.give_tape(tape);
    Ok(())
}

/// Where a tape stands: the number of the next record, what was spent, how many bytes are held.
type Place = [u64; 3];

fn place(maker: &Maker) -> Place {
    let StraightTape { number, spent, held, .. } = *maker.tape();
    [number, spent, held]
}

/// A block that is taken, and where the tape stands then. It has neither stopped nor ended.
fn fed(maker: &mut Maker, bytes: Range<usize>, wanted: Place) -> Made<()> {
    let what = format!("block {bytes:?}");
    expect(&what, maker.feed(bytes)?, 0)?;
    expect(&what, place(maker), wanted)?;
    expect(&what, (maker.tape().stop, maker.tape().end_flag), (anew(None), 0))
}

/// An end that is new, and where the tape stands then; it has not stopped.
fn ended(maker: &mut Maker, wanted: Place) -> Made<()> {
    maker.finish()?;
    expect("the end", place(maker), wanted)?;
    expect("the end", (maker.tape().stop, maker.tape().end_flag), (anew(None), 1))
}

/// The tape, how the current instance is told, and the stack.
type All = (StraightTape, Flagged, Reading);

fn all(maker: &Maker) -> All {
    (*maker.tape(), maker.current(), maker.world())
}

/// A block that changes nothing, and its number.
fn unmoved(maker: &mut Maker, bytes: Range<usize>, number: u64) -> Made<()> {
    let (what, before) = (format!("block {bytes:?}"), all(maker));
    expect(&what, maker.feed(bytes)?, number)?;
    expect(&what, all(maker), before)
}

/// An end that changes nothing.
fn unmoved_by_end(maker: &mut Maker) -> Made<()> {
    let before = all(maker);
    maker.finish()?;
    expect("an end", all(maker), before)
}
