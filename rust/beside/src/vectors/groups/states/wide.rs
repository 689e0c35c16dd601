//! D at its limit and one above it, with words for both: only the limit is left to refuse. Told by sums.

use super::super::claims::expect;
use super::super::kinds::{IP, RESTORE, pop, push, sync};
use super::eleven::{Broken, Laid, all_eleven, laid};
use crate::case::FRAME_WORDS;
use crate::vectors::maker::{Made, Maker};

const MOST_FRAMES: u64 = 65_536;
const WORDS: u64 = FRAME_WORDS * MOST_FRAMES;

/// One frame, with so many words lent.
const fn wide(depth: u64, words: u64) -> Laid {
    laid([depth, 5, words, 4, 1, 4])
}

const CASES: [(&str, Laid, Broken); 4] = [
    (
        "9: not with D 65,536 and words for one frame more",
        wide(MOST_FRAMES, WORDS + FRAME_WORDS),
        Broken::Nothing,
    ),
    (
        "9: D 65,537 with words for it",
        wide(MOST_FRAMES + 1, WORDS + FRAME_WORDS),
        Broken::State,
    ),
    ("9: not with D 65,536 and 262,144 words", wide(MOST_FRAMES, WORDS), Broken::Nothing),
    ("9: D 65,536 with 262,143 words", wide(MOST_FRAMES, WORDS - 1), Broken::State),
];

pub fn make(maker: &mut Maker) -> Made<()> {
    maker.sums();
    maker.says("one row that nothing is wrong with");
    (0..).zip([100, 0, 0, 0]).for_each(|(i, word)| maker.give_word(i, word));
    for (words, laid, broken) in &CASES {
        maker.says(words);
        all_eleven(maker, laid, *broken)?;
    }
    last_row(maker)
}

/// 65,536 frames: the newest row lies in words 262,140 to 262,143.
fn last_row(maker: &mut Maker) -> Made<()> {
    maker.says("65,536 frames of as many: a push is one too many, the last two rows are read, and a pop finds the debt 7");
    let newest = WORDS as usize - 4;
    (newest - 4..)
        .zip([500, 1, 0, 0, 600, 2, 1, 7])
        .for_each(|(i, word)| maker.give_word(i, word));
    let full = laid([MOST_FRAMES, 5, WORDS, 4, MOST_FRAMES, 4]);
    maker.give(full.state, full.lent.0, full.lent.1);
    let asks = [
        (push(IP, [0, 0, 0, 0]), [2, 0, 0, 0]),
        (RESTORE, [0, 2, 600, 1]),
        (sync(601), [0, 2, 0, 0]),
        (RESTORE, [0, 2, 601, 1]),
        (pop(5), [0, 1, 500, 7]),
        (push(Some(501), [1, 0, 0, 1]), [0, 2, 0, 0]),
        (pop(5), [0, 1, 501, 5]),
    ];
    asks.iter().try_for_each(|(q, wanted)| {
        let found = maker.ask(q)?;
        expect("the last row", [found.number, found.offset, found.ip, found.instance], *wanted)
    })
}
