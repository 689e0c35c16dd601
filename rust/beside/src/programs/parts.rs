//! part_vectors: the parts that a host is lent of ten cells, six of them in use, and a routine called over them.

use super::{row, stdout};
use crate::plain::{HostFrame, State};
use crate::reading::Reading;

const CELLS: [u64; 10] = [1, 2, 3, 4, 5, u64::MAX, 7, 8, 9, 10];

/// How many words the state says, of 12 that are lent; start, end, params and results.
const CASES: [(u64, [u64; 2], [u16; 2]); 10] = [
    (12, [2, 5], [3, 1]),
    (12, [2, 5], [0, 3]),
    (12, [3, 6], [3, 1]),
    (12, [3, 6], [1, 3]),
    (12, [4, 7], [3, 1]),
    (12, [3, 5], [3, 1]),
    (12, [5, 5], [0, 0]),
    (12, [u64::MAX, 0], [0, 0]),
    (13, [2, 5], [3, 1]),
    (11, [2, 5], [0, 0]),
];

fn stack(words: u64) -> Reading {
    let state = State {
        depth: 3,
        height: 12,
        words,
        cells: 10,
        len: 6,
        ..State::default()
    };
    Reading {
        state,
        words: vec![99; 12],
        cells: CELLS.to_vec(),
    }
}

/// The cells with another number in the first of those for results, if there is one.
fn stored(offset: usize, results: u64, number: u64) -> Vec<u64> {
    let mut cells = CELLS.to_vec();
    if results > 0 {
        cells[offset] = number;
    }
    cells
}

/// Both answers, the parameters and the first of them, the cells for results; the cells after 50 is written there, and after the sum is.
fn rows((words, [start, end], [params, results]): (u64, [u64; 2], [u16; 2])) -> String {
    let frame = HostFrame {
        start,
        end,
        params,
        results,
    };
    let answer = stack(words).host_part(&frame);
    let (offset, (params, results)) = (answer.offset as usize, answer.part);
    let given = &CELLS[offset..offset + params as usize];
    let sum = given.iter().fold(0, |sum: u64, cell| sum.wrapping_add(*cell));
    let first = given.first().copied().unwrap_or(0);
    row(&[answer.number, answer.number, params, first, results]) + &row(&stored(offset, results, 50)) + &row(&stored(offset, results, sum))
}

#[test]
fn each_part_is_the_readings() {
    let title = "part call params first results; cells written; cells called\n".to_string();
    assert_eq!(stdout("part_vectors"), title + &CASES.map(rows).concat());
}
