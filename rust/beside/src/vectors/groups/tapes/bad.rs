//! Bad records across a cut: the byte that is wrong lies before it or behind it.

use super::super::bytes::Fields;
use super::super::claims::expect;
use super::super::replays::lay;
use super::super::replays::records::{BAD, EXAMPLE};
use super::{begun, fed, stand};
use crate::plain::anew;
use crate::vectors::maker::{Made, Maker};

/// A push with an instance but not its flag: its last byte is wrong.
const UNFLAGGED: Fields = [1, 1, 2, 1, 2, 3, 0, 101, 200, 0x0200_0000_0000_0000];

/// The place of a spare byte of the first pop.
const SPARE: usize = 80 + 13;

pub fn make(maker: &mut Maker) -> Made<()> {
    maker.says("a push; then bad ones: a push whose byte 39 is wrong, a pop whose byte 13 is wrong, a record of zeros; and a good pop");
    lay(maker, &[EXAMPLE[0], UNFLAGGED, EXAMPLE[2], BAD, EXAMPLE[2]]);
    maker.byte(SPARE, 1);
    stand(maker, begun(12))?;
    fed(maker, 0..40, [1, 3, 0])?;
    let stack = maker.world();
    maker.says("each bad one in two blocks, cut just before or just behind what is wrong, or elsewhere: a cost of 1, and nothing is pushed or popped");
    let cuts = [(40, 1), (40, 39), (80, 13), (80, 14), (120, 1), (120, 39)];
    for (earlier, (from, cut)) in (0..).zip(cuts) {
        across(maker, earlier, from, cut)?;
    }
    all_three(maker)?;
    expect("the stack", maker.world(), stack)
}

/// So many bad records came before.
fn across(maker: &mut Maker, earlier: u64, from: usize, cut: usize) -> Made<()> {
    fed(maker, from..from + cut, [1 + earlier, 3 + earlier, cut as u64])?;
    fed(maker, from + cut..from + 40, [2 + earlier, 4 + earlier, 0])
}

/// Behind 7 records, with 9 spent of 12.
fn all_three(maker: &mut Maker) -> Made<()> {
    maker.says("all three in blocks that end one and begin the next, with fuel for them alone; the good pop is stopped before");
    fed(maker, 40..60, [7, 9, 20])?;
    fed(maker, 60..119, [8, 10, 39])?;
    fed(maker, 119..121, [9, 11, 1])?;
    fed(maker, 121..199, [10, 12, 39])?;
    expect("the block", maker.feed(199..200)?, 0)?;
    expect("the stop", (maker.tape().number, maker.tape().stop), (10, anew(Some(1))))?;
    maker.says("no fuel: the bad push across a cut is stopped before, with cost 1");
    maker.give_tape(begun(0));
    fed(maker, 40..79, [0, 0, 39])?;
    expect("the block", maker.feed(79..80)?, 0)?;
    expect("the stop", (maker.tape().number, maker.tape().stop), (0, anew(Some(1))))
}
