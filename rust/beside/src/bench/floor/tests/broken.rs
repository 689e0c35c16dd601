//! Each cause of 9 by itself, on a stack that is sound otherwise, and beside it what is just not broken.

use super::ask_both;
use crate::example::{NOTHING, P, Q};
use crate::plain::Request;
use crate::reading::Reading;

type Change = fn(&mut Reading);

/// Three frames, the words and cells that they need, and one frame more.
fn stack() -> Reading {
    let (_, mut stack) = Reading::open(8 * 20, 4, vec![7; 16], vec![8; 20]);
    for q in [P, Q, Q] {
        assert_eq!(stack.ask(&q).number, 0);
    }
    stack
}

/// One of each kind, accepted on that stack.
fn requests() -> [Request; 5] {
    let [pop, back] = [2, 5].map(|kind| Request {
        kind,
        instance: Some(9),
        ..NOTHING
    });
    let replace = Request {
        kind: 3,
        caller: None,
        ..Q
    };
    let host = Request {
        kind: 4,
        caller: Some(5),
        ..NOTHING
    };
    [Q, pop, replace, host, back]
}

/// The numbers of all five on the stack after a change.
fn numbers(change: impl Fn(&mut Reading)) -> [u64; 5] {
    requests().map(|q| {
        let mut stack = stack();
        change(&mut stack);
        ask_both(&mut stack, &q, q.kind).number
    })
}

fn lend_words(stack: &mut Reading, words: usize) {
    stack.words.resize(words, 0);
    stack.state.words = words as u64;
}

fn lend_cells(stack: &mut Reading, cells: usize) {
    stack.cells.resize(cells, 0);
    stack.state.cells = cells as u64;
}

const BROKEN: [(&str, Change); 11] = [
    ("a word more than the state has", |s| s.words.push(0)),
    ("a word less", |s| s.words.truncate(15)),
    ("a cell more than the state has", |s| s.cells.push(0)),
    ("a cell less", |s| s.cells.truncate(19)),
    ("depth above its limit", |s| {
        s.state.depth = 65_537;
        lend_words(s, 4 * 65_537);
    }),
    ("height above its limit", |s| s.state.height = 1_048_577),
    ("cells above their limit", |s| lend_cells(s, 1_048_577)),
    ("words for less than the depth", |s| lend_words(s, 15)),
    ("count above depth", |s| s.state.depth = 2),
    ("len above the cells", |s| lend_cells(s, s.state.len as usize - 1)),
    ("len above the height", |s| s.state.height = s.state.len - 1),
];

const JUST_NOT: [(&str, Change); 6] = [
    ("depth at its limit", |s| {
        s.state.depth = 65_536;
        lend_words(s, 4 * 65_536);
    }),
    ("height at its limit", |s| s.state.height = 1_048_576),
    ("cells at their limit", |s| lend_cells(s, 1_048_576)),
    ("count at depth", |s| s.state.depth = 3),
    ("len at the cells", |s| lend_cells(s, s.state.len as usize)),
    ("len at the height", |s| s.state.height = s.state.len),
];

#[test]
fn each_cause_of_the_state() {
    assert_eq!(numbers(|_| ()), [0; 5]);
    for (cause, change) in BROKEN {
        assert_eq!(numbers(change), [9; 5], "{cause}");
    }
    for (cause, change) in JUST_NOT {
        assert!(!numbers(change).contains(&9), "{cause}");
    }
}

/// What breaks a frame; `len` is 7.
const ROWS: [(&str, [Option<u64>; 3]); 3] = [
    ("start above len", [Some(8), None, None]),
    ("a flag of 2", [None, Some(2), None]),
    ("a debt beside a flag of 0", [None, Some(0), Some(1)]),
];

/// The newest frame is read by all; the next by pop and return-host; the one below it by none.
#[test]
fn each_cause_of_a_frame() {
    let nines = [[9; 5], [0, 9, 0, 0, 9], [0; 5]];
    for (cause, row) in ROWS {
        assert_eq!([2, 1, 0].map(|index| numbers(|stack| put(stack, index, row))), nines, "{cause}");
    }
    let just_not = [Some(7), Some(1), Some(u64::MAX)];
    assert!(!numbers(|stack| put(stack, 2, just_not)).contains(&9));
}

/// Start, flag and debt of a frame, the oldest first.
fn put(stack: &mut Reading, index: usize, row: [Option<u64>; 3]) {
    let words = &mut stack.words[4 * index + 1..4 * index + 4];
    words.iter_mut().zip(row).for_each(|(word, put)| *word = put.unwrap_or(*word));
}
