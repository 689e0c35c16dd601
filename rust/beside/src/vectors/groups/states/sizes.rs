//! The causes of 9 in the sizes and lengths of a state, each by itself, and both sides of each bound.

use super::eleven::{Broken, Laid, all_eleven, laid};
use crate::vectors::maker::{Made, Maker};

/// Four rows that nothing is wrong with.
const ROWS: [[u64; 4]; 4] = [[100, 0, 0, 0], [200, 2, 1, 1], [300, 3, 0, 0], [340, 0, 0, 0]];

const GOOD: [(&str, Laid); 3] = [
    (
        "9: not at any bound: words for D 2, two frames, `len` at L and M 4",
        laid([2, 4, 8, 4, 2, 4]),
    ),
    (
        "9: not with one word and one cell more than is needed, both lent",
        laid([2, 5, 9, 5, 1, 4]),
    ),
    ("9: not with M 1,048,576", laid([2, 1_048_576, 8, 4, 2, 4])),
];

/// So much lent where the state says something else.
const fn lending(words: usize, cells: usize, laid: Laid) -> Laid {
    Laid {
        lent: (words, cells),
        ..laid
    }
}

const BROKEN: [(&str, Laid); 16] = [
    ("9: a word more lent than the state says", lending(9, 4, laid([2, 4, 8, 4, 2, 4]))),
    ("9: a word fewer lent", lending(8, 4, laid([2, 4, 9, 4, 2, 4]))),
    ("9: a cell more lent than the state says", lending(8, 5, laid([2, 4, 8, 4, 2, 4]))),
    ("9: a cell fewer lent", lending(8, 4, laid([2, 4, 8, 5, 2, 4]))),
    ("9: nothing lent", lending(0, 0, laid([2, 4, 8, 4, 2, 4]))),
    (
        "9: more lent than in the state of zeros that a refused opening leaves",
        lending(8, 4, laid([0, 0, 0, 0, 0, 0])),
    ),
    ("9: D 65,537, with words for 2", laid([65_537, 4, 8, 4, 2, 4])),
    (
        "9: D 2^62 + 2, whose fourfold would wrap to the 8 words",
        laid([(1 << 62) + 2, 4, 8, 4, 2, 4]),
    ),
    ("9: M 1,048,577", laid([2, 1_048_577, 8, 4, 2, 4])),
    ("9: D 3 with 11 words", laid([3, 4, 11, 4, 2, 4])),
    ("9: D 3 with 8 words", laid([3, 4, 8, 4, 2, 4])),
    ("9: three frames of D 2, with words for three", laid([2, 4, 12, 4, 3, 4])),
    ("9: 2^64 - 1 frames", laid([2, 4, 8, 4, u64::MAX, 4])),
    ("9: `len` 5 above L 4 but not above M", laid([2, 6, 8, 4, 2, 5])),
    ("9: `len` 5 above M 4 but not above L", laid([2, 4, 8, 6, 2, 5])),
    (
        "9: before 4: a word fewer lent, without a frame",
        lending(8, 4, laid([2, 4, 9, 4, 0, 4])),
    ),
];

pub fn make(maker: &mut Maker) -> Made<()> {
    maker.says("9: rows that nothing is wrong with");
    (0..).zip(ROWS.as_flattened()).for_each(|(i, word)| maker.give_word(i, *word));
    for (words, laid) in &GOOD {
        maker.says(words);
        all_eleven(maker, laid, Broken::Nothing)?;
    }
    for (words, laid) in &BROKEN {
        maker.says(words);
        all_eleven(maker, laid, Broken::State)?;
    }
    Ok(())
}
