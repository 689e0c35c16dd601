//! The causes of 9 in the rows of the frames that are read. `len` is 4.

use super::super::claims::asked;
use super::super::kinds::{IP, push};
use super::eleven::{Broken, Laid, all_eleven, laid};
use crate::vectors::maker::{Made, Maker};

const MOST: u64 = u64::MAX;

/// The words of start, flag and debt of the newest row of two, and of the next.
const TOP: usize = 5;
const NEXT: usize = 1;

const TWO: Laid = laid([3, 5, 12, 4, 2, 4]);
const THREE: Laid = laid([3, 5, 12, 4, 3, 4]);

/// What is shown, where start, flag and debt are laid down, and what is wrong then.
type Case = (&'static str, usize, [u64; 3], Broken);

const CASES: [Case; 14] = [
    ("9: not with the newest start at `len`", TOP, [4, 0, 0], Broken::Nothing),
    (
        "9: the newest start above `len`; reset, register sync and host part read no frame",
        TOP,
        [5, 0, 0],
        Broken::Top,
    ),
    ("9: the newest start 2^64 - 1", TOP, [MOST, 0, 0], Broken::Top),
    ("9: the newest flag 2", TOP, [2, 2, 0], Broken::Top),
    ("9: the newest flag 2 beside a debt", TOP, [2, 2, 1], Broken::Top),
    ("9: the newest flag 2^64 - 1", TOP, [2, MOST, 0], Broken::Top),
    ("9: the newest flag 0 beside a debt", TOP, [2, 0, 5], Broken::Top),
    ("9: the newest flag 0 beside the debt 2^64 - 1", TOP, [0, 0, MOST], Broken::Top),
    ("9: not with the newest flag 1 beside instance 0", TOP, [2, 1, 0], Broken::Nothing),
    (
        "9: the next start above `len`: only pop and return-host read it",
        NEXT,
        [5, 0, 0],
        Broken::Next,
    ),
    ("9: the next flag 2", NEXT, [0, 2, 0], Broken::Next),
    ("9: the next flag 0 beside a debt", NEXT, [0, 0, 5], Broken::Next),
    ("9: not with the next flag 1 beside instance 0", NEXT, [0, 1, 0], Broken::Nothing),
    (
        "9: not with the next start at `len`, above the newest, nor with the next flag 1 beside 2^64 - 1",
        NEXT,
        [4, 1, MOST],
        Broken::Nothing,
    ),
];

pub fn make(maker: &mut Maker) -> Made<()> {
    for (words, at, row, broken) in &CASES {
        maker.says(words);
        lay(maker, NEXT, [0, 0, 0]);
        lay(maker, *at, *row);
        all_eleven(maker, &TWO, *broken)?;
    }
    the_last(maker)?;
    unread(maker)?;
    before_the_depth(maker)
}

/// Start, flag and debt from this word on.
fn lay(maker: &mut Maker, at: usize, row: [u64; 3]) {
    (at..).zip(row).for_each(|(i, word)| maker.give_word(i, word));
}

/// Also where what is wrong would not be used.
fn the_last(maker: &mut Maker) -> Made<()> {
    maker.says("9: the debt of the one frame that goes last, although it would be forgotten");
    lay(maker, NEXT, [0, 0, 5]);
    all_eleven(maker, &laid([3, 5, 12, 4, 1, 4]), Broken::Top)
}

/// The third frame from the top is read by none; without frames no row is.
fn unread(maker: &mut Maker) -> Made<()> {
    maker.says("9: not where only the third frame from the top is wrong, in everything");
    lay(maker, NEXT, [MOST, MOST, MOST]);
    lay(maker, TOP, [2, 1, 1]);
    all_eleven(maker, &THREE, Broken::Nothing)?;
    maker.says("9: not without a frame, whatever the rows hold: what needs a frame gets 4");
    lay(maker, NEXT, [99, 99, 99]);
    lay(maker, TOP, [99, 99, 99]);
    all_eleven(maker, &laid([3, 5, 12, 4, 0, 4]), Broken::Nothing)
}

fn before_the_depth(maker: &mut Maker) -> Made<()> {
    maker.says("9 before 2 (depth): push reads the newest of D frames first; then the row is good");
    lay(maker, TOP, [2, 2, 0]);
    let full = laid([2, 5, 8, 4, 2, 4]);
    maker.give(full.state, full.lent.0, full.lent.1);
    asked(maker, &push(IP, [0, 0, 0, 0]), 9)?;
    lay(maker, TOP, [2, 0, 0]);
    asked(maker, &push(IP, [0, 0, 0, 0]), 2).map(|_| ())
}
