//! Tapes that no block leaves: more than 39 bytes held, bytes behind those held, an end with bytes held or with a stop, and any flags.

use super::super::bytes::record;
use super::super::claims::{expect, opened};
use super::super::replays::records::EXAMPLE;
use super::{WORLD, begun, ended, fed, stand, unmoved, unmoved_by_end};
use crate::plain::Flagged;
use crate::reading::{RECORD_BYTES, StraightTape};
use crate::vectors::maker::{Made, Maker};

const MOST: u64 = u64::MAX;

/// What stands behind the bytes that are held.
const BEHIND: u8 = 0xee;

/// A current instance that is given with a flag which no request leaves.
const CURRENT: Flagged = [3, 1];

/// Over the example's records.
pub fn make(maker: &mut Maker) -> Made<()> {
    more_than_held(maker)?;
    behind_the_held(maker)?;
    over(maker)?;
    flags(maker)
}

/// The first record's first bytes, others behind them, and a number that says how many are held.
fn holding(bytes: usize, held: u64) -> StraightTape {
    let mut kept = record(EXAMPLE[0]);
    kept[bytes..].fill(BEHIND);
    StraightTape { kept, held, ..begun(100) }
}

fn more_than_held(maker: &mut Maker) -> Made<()> {
    for (held, said) in [(40, "40"), (41, "41"), (MOST, "2^64 - 1")] {
        maker.says(&format!(
            "{said} bytes held count as 39: an empty block hands them back, the next byte completes the record, an end makes it a short one"
        ));
        stand(maker, holding(39, held))?;
        unmoved(maker, 39..39, 0)?;
        fed(maker, 39..50, [1, 3, 10])?;
        maker.give_tape(holding(39, held));
        ended(maker, [1, 1, 0])?;
    }
    Ok(())
}

/// So many bytes of the first record are kept, and zeros behind them.
fn kept(maker: &Maker, held: usize) -> Made<()> {
    let mut wanted = [0; RECORD_BYTES];
    wanted[..held].copy_from_slice(&record(EXAMPLE[0])[..held]);
    expect("the bytes", maker.tape().kept, wanted)
}

fn behind_the_held(maker: &mut Maker) -> Made<()> {
    maker.says(
        "bytes behind the 10 held come back with an empty block; no other block, nor an end, looks at them, and zeros stand there then",
    );
    stand(maker, holding(10, 10))?;
    unmoved(maker, 10..10, 0)?;
    fed(maker, 10..12, [0, 0, 12])?;
    kept(maker, 12)?;
    maker.give_tape(holding(10, 10));
    fed(maker, 10..40, [1, 3, 0])?;
    kept(maker, 0)?;
    maker.give_tape(holding(10, 10));
    ended(maker, [1, 1, 0])?;
    kept(maker, 0)?;
    maker.says("so with none held: a block of 50 bytes, and an end");
    stand(maker, holding(0, 0))?;
    fed(maker, 0..50, [1, 3, 10])?;
    kept_second(maker)?;
    maker.give_tape(holding(0, 0));
    ended(maker, [0, 0, 0])?;
    kept(maker, 0)
}

/// Ten bytes of the second record.
fn kept_second(maker: &Maker) -> Made<()> {
    let found = maker.tape().kept;
    expect("the bytes", &found[..10], &record(EXAMPLE[1])[..10])?;
    expect("behind them", &found[10..], &[0; 30])
}

/// A tape that is over: an empty block is 0, others have this number, and all comes back as it came.
fn stays(maker: &mut Maker, tape: StraightTape, number: u64) -> Made<()> {
    maker.give_tape(tape);
    unmoved(maker, 10..10, 0)?;
    unmoved(maker, 10..11, number)?;
    unmoved(maker, 10..200, number)?;
    unmoved_by_end(maker)
}

fn over(maker: &mut Maker) -> Made<()> {
    maker.says("ended and stopped: blocks are 0, not 22, and an end adds nothing; so with any flags, a cost of 0, and bytes held");
    opened(maker, WORLD)?;
    for (end_flag, stop, tape) in [
        (1, [1, 4], begun(100)),
        (2, [9, 0], holding(10, 10)),
        (MOST, [MOST, 1], holding(10, 41)),
    ] {
        stays(maker, StraightTape { stop, end_flag, ..tape }, 0)?;
    }
    maker.says("ended with bytes held: blocks are 22, an end does not report them, and they come back; so with any flags, and 41 held");
    for (end_flag, stop, held) in [(1, [0, 0], 10), (2, [0, 5], 41), (MOST, [0, MOST], MOST)] {
        stays(
            maker,
            StraightTape {
                stop,
                end_flag,
                ..holding(10, held)
            },
            22,
        )?;
    }
    maker.says("stopped and not ended, with bytes held: nothing moves, and they come back; so with 41 held");
    for (stop, held) in [([1, 4], 10), ([2, 0], 41)] {
        stays(maker, StraightTape { stop, ..holding(10, held) }, 0)?;
    }
    Ok(())
}

fn flags(maker: &mut Maker) -> Made<()> {
    maker.says("no stop, with 5 beside it, and current instance 1 with flag 3: a push that names 1 leaves both; one that names 2, or a stop, is told anew");
    for (fuel, to, stop, current) in [
        (100, 40, [0, 5], CURRENT),
        (100, 80, [0, 5], [1, 2]),
        (4, 80, [1, 2], CURRENT),
        (0, 40, [1, 3], CURRENT),
    ] {
        flagged(maker, fuel)?;
        expect("the block", maker.feed(0..to)?, 0)?;
        expect("flags", (maker.tape().stop, maker.current()), (stop, current))?;
    }
    maker.says("so at an end: a short record leaves both, and one that is stopped before leaves the current instance");
    for (fuel, stop) in [(1, [0, 5]), (0, [1, 1])] {
        flagged(maker, fuel)?;
        expect("the block", maker.feed(0..39)?, 0)?;
        maker.finish()?;
        expect("flags", (maker.tape().stop, maker.current()), (stop, CURRENT))?;
    }
    Ok(())
}

fn flagged(maker: &mut Maker, fuel: u64) -> Made<()> {
    opened(maker, WORLD)?;
    let (state, [.., words, cells]) = (*maker.state(), WORLD.map(|size| size as usize));
    maker.give_told(state, CURRENT, words, cells);
    maker.give_tape(StraightTape {
        stop: [0, 5],
        ..begun(fuel)
    });
    Ok(())
}
