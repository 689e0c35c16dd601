//! Empty blocks, short records, which only an end reports, ends, and blocks after an end.

use super::{begun, ended, fed, stand, unmoved, unmoved_by_end};
use crate::vectors::maker::{Made, Maker};

/// Over the example's records.
pub fn make(maker: &mut Maker) -> Made<()> {
    empty_blocks(maker)?;
    short_records(maker)?;
    nothing_held(maker)?;
    after_an_end(maker)
}

fn empty_blocks(maker: &mut Maker) -> Made<()> {
    maker.says("an empty block at the beginning, in the middle of a record, between two records, after an end: 0, and nothing changes");
    stand(maker, begun(100))?;
    unmoved(maker, 0..0, 0)?;
    fed(maker, 0..17, [0, 0, 17])?;
    unmoved(maker, 17..17, 0)?;
    fed(maker, 17..40, [1, 3, 0])?;
    unmoved(maker, 40..40, 0)?;
    ended(maker, [1, 3, 0])?;
    unmoved(maker, 200..200, 0)
}

fn short_records(maker: &mut Maker) -> Made<()> {
    maker.says("1 byte, 39, 41 and 79: the short record is no record until the end is told; then it costs 1; a second end adds nothing");
    for (length, [number, spent]) in [(1, [0, 0]), (39, [0, 0]), (41, [1, 3]), (79, [1, 3])] {
        stand(maker, begun(100))?;
        fed(maker, 0..length, [number, spent, length as u64 % 40])?;
        ended(maker, [number + 1, spent + 1, 0])?;
        unmoved_by_end(maker)?;
    }
    maker.says("39 bytes in two blocks, with fuel 1: it is enough for the short record");
    stand(maker, begun(1))?;
    fed(maker, 0..20, [0, 0, 20])?;
    fed(maker, 20..39, [0, 0, 39])?;
    ended(maker, [1, 1, 0])
}

fn nothing_held(maker: &mut Maker) -> Made<()> {
    maker.says("an end with nothing held, before any block and behind a whole record, adds no record; a second end adds nothing");
    stand(maker, begun(100))?;
    ended(maker, [0, 0, 0])?;
    unmoved_by_end(maker)?;
    stand(maker, begun(3))?;
    fed(maker, 0..40, [1, 3, 0])?;
    ended(maker, [1, 3, 0])?;
    unmoved_by_end(maker)
}

fn after_an_end(maker: &mut Maker) -> Made<()> {
    maker.says(
        "after an end behind 50 bytes: blocks of 1, 30, 40 and 150 bytes are 22, and nothing changes; an empty one is 0; a second end adds nothing",
    );
    stand(maker, begun(100))?;
    fed(maker, 0..50, [1, 3, 10])?;
    ended(maker, [2, 4, 0])?;
    for to in [51, 80, 90, 200] {
        unmoved(maker, 50..to, 22)?;
    }
    unmoved(maker, 50..50, 0)?;
    unmoved_by_end(maker)?;
    unmoved(maker, 50..51, 22)
}
