//! Stops: in a block, at its end, in the record that it completes, and at the end report; then blocks and ends after them.

use super::super::claims::{expect, opened};
use super::{WORLD, begun, ended, fed, place, stand, unmoved, unmoved_by_end};
use crate::plain::anew;
use crate::vectors::desk::NO_TAPE;
use crate::vectors::maker::{Made, Maker};
use std::ops::Range;

/// Over the example's records, which cost 3, 2, 1, 1 and 1.
pub fn make(maker: &mut Maker) -> Made<()> {
    in_a_block(maker)?;
    in_a_begun_record(maker)?;
    without_fuel(maker)?;
    at_the_end(maker)?;
    at_other_ends(maker)
}

/// It has stopped, with this number and so much spent, before a record of this cost; nothing is held.
fn has_stopped(maker: &Maker, [number, spent, cost]: [u64; 3], end_flag: u64) -> Made<()> {
    let tape = maker.tape();
    expect("where it stopped", place(maker), [number, spent, 0])?;
    expect("the stop", (tape.stop, tape.end_flag), (anew(Some(cost)), end_flag))?;
    expect("the bytes", tape.kept, NO_TAPE.kept)
}

/// A block in which it stops.
fn stopping(maker: &mut Maker, bytes: Range<usize>, wanted: [u64; 3]) -> Made<()> {
    expect("the block", maker.feed(bytes)?, 0)?;
    has_stopped(maker, wanted, 0)
}

/// Blocks and ends repeat the stop: no 22, and nothing changes.
fn after_it(maker: &mut Maker) -> Made<()> {
    for bytes in [80..80, 80..81, 41..200] {
        unmoved(maker, bytes, 0)?;
    }
    unmoved_by_end(maker)?;
    unmoved(maker, 80..120, 0)?;
    unmoved_by_end(maker)
}

fn in_a_block(maker: &mut Maker) -> Made<()> {
    maker.says(
        "fuel 4: a block of 130 bytes stops before the second record, of cost 2; what is behind it, 10 bytes of a fourth too, is not held",
    );
    stand(maker, begun(4))?;
    stopping(maker, 0..130, [1, 3, 2])?;
    maker.says("after it: blocks of no byte, of 1 and of 159, an end, a block of 40 bytes, an end: 0, and nothing changes");
    after_it(maker)?;
    maker.says("fuel 4: a block of 80 bytes stops at its end; fuel 5: it does not");
    stand(maker, begun(4))?;
    stopping(maker, 0..80, [1, 3, 2])?;
    stand(maker, begun(5))?;
    fed(maker, 0..80, [2, 5, 0])
}

fn in_a_begun_record(maker: &mut Maker) -> Made<()> {
    maker.says(
        "fuel 4, and 60 bytes: no stop yet; 20 bytes more complete the second record, and it stops there, at the block's end or in it",
    );
    for to in [80, 95] {
        stand(maker, begun(4))?;
        fed(maker, 0..60, [1, 3, 20])?;
        stopping(maker, 60..to, [1, 3, 2])?;
    }
    unmoved(maker, 95..96, 0)
}

/// An opening lays a tape of zeros down.
fn without_fuel(maker: &mut Maker) -> Made<()> {
    maker
        .says("no fuel, the tape that an opening lays down: 40 bytes at once, or byte 40 behind 39, stop before record 0, with its cost 3");
    opened(maker, WORLD)?;
    stopping(maker, 0..40, [0, 0, 3])?;
    opened(maker, WORLD)?;
    fed(maker, 0..39, [0, 0, 39])?;
    stopping(maker, 39..40, [0, 0, 3])
}

fn at_the_end(maker: &mut Maker) -> Made<()> {
    maker.says("no fuel, and 39 bytes: no stop; the end stops, before record 0, with cost 1");
    opened(maker, WORLD)?;
    fed(maker, 0..39, [0, 0, 39])?;
    unmoved(maker, 39..39, 0)?;
    maker.finish()?;
    has_stopped(maker, [0, 0, 1], 1)?;
    maker.says("after this end, which is one with a stop, the same: no 22");
    after_it(maker)
}

fn at_other_ends(maker: &mut Maker) -> Made<()> {
    maker.says("fuel 3, and 41 bytes: the end stops before record 1, with cost 1; fuel 4: it does not");
    stand(maker, begun(3))?;
    fed(maker, 0..41, [1, 3, 1])?;
    maker.finish()?;
    has_stopped(maker, [1, 3, 1], 1)?;
    stand(maker, begun(4))?;
    fed(maker, 0..41, [1, 3, 1])?;
    ended(maker, [2, 4, 0])?;
    maker.says("no fuel, and an end with nothing held: no stop, so 22 follows");
    opened(maker, WORLD)?;
    ended(maker, [0, 0, 0])?;
    unmoved(maker, 0..1, 22)
}
