//! Host 9, 4, 2, 3. L is 10 and `len` 6; with one frame the top start is 0, with two it is 2.

use super::super::claims::{asked, expect, row};
use super::super::kinds::{IP, MOST, host};
use super::super::scene::{Group, HIGH, nine_before, on, tell};
use crate::plain::{HostFrame, Request};
use crate::vectors::maker::{Made, Maker};

const fn over(counts: [u16; 3]) -> Request {
    host(IP, counts)
}

const REFUSED: &[Group] = &[
    (
        "host: 4 for a caller ip without a frame; without the ip it is done",
        &[(on(12, 0), over([0, 1, 1]), 4), (on(12, 0), host(None, [0, 1, 1]), 0)],
    ),
    (
        "host: 4 before 2: with the ip, then without it",
        &[
            (on(12, 0), over([MOST, MOST, MOST]), 4),
            (on(12, 0), host(None, [MOST, MOST, MOST]), 2),
        ],
    ),
    (
        "host: 2 where M 12 and L 10 are both passed, before 3 where only L is: 13 parameters, 12 results, 11 parameters; 10 are done",
        &[
            (on(12, 1), over([0, 13, 0]), 2),
            (on(12, 1), over([0, 0, 12]), 3),
            (on(12, 1), over([0, 11, 0]), 3),
            (on(12, 1), over([0, 10, 3]), 0),
        ],
    ),
    (
        "host: a frame of size 0 grows to its start: 13 is refused with 2, 11 with 3, 10 is done",
        &[
            (on(12, 1), over([13, 0, 0]), 2),
            (on(12, 1), over([11, 0, 0]), 3),
            (on(12, 1), over([10, 0, 0]), 0),
        ],
    ),
    (
        "host: with M 8 below L 3 never comes: 11 and 9 cells are refused with 2, 8 are done",
        &[
            (on(8, 1), over([6, 5, 0]), 2),
            (on(8, 1), over([6, 0, 3]), 2),
            (on(8, 1), over([6, 2, 0]), 0),
        ],
    ),
    (
        "host: with M and L 10: 11 cells are refused with 2, 10 are done",
        &[(on(10, 1), over([6, 5, 0]), 2), (on(10, 1), over([6, 4, 0]), 0)],
    ),
    (
        "host: over a frame at 2 the sum counts: 11 cells are refused with 3, 10 are done",
        &[(on(12, 2), over([4, 1, 5]), 3), (on(12, 2), over([4, 4, 1]), 0)],
    ),
    (
        "host: sums beyond 16 bits, with M 12 and then with M 1,048,576",
        &[
            (on(12, 1), over([MOST, 1, 0]), 2),
            (on(12, 1), over([MOST, MOST, MOST]), 2),
            (on(HIGH, 1), over([MOST, 1, 0]), 3),
            (on(HIGH, 1), over([MOST, MOST, MOST]), 3),
        ],
    ),
];

/// What an accepted host shows, over how many frames, the request, its offset, the host frame's start and end, `len`.
type Done = (&'static str, usize, Request, [u64; 4]);

const DONE: &[Done] = &[
    (
        "host: the larger count is the size: 10 results",
        1,
        host(None, [0, 3, 10]),
        [0, 0, 10, 10],
    ),
    (
        "host: over a frame without an ip it is done: 6 is push's",
        1,
        host(None, [2, 2, 1]),
        [0, 2, 4, 6],
    ),
    ("host: what is needed already is there", 1, over([2, 1, 2]), [0, 2, 4, 6]),
    (
        "host: the offset is the top start, the host start lies the head above it",
        2,
        over([2, 1, 2]),
        [2, 4, 6, 6],
    ),
    ("host: without a frame the top start is 0", 0, host(None, [3, 2, 1]), [0, 3, 5, 6]),
    ("host: a frame of size 0 is its start twice", 2, over([1, 0, 0]), [2, 3, 3, 6]),
];

pub fn make(maker: &mut Maker) -> Made<()> {
    let words = "host: 9 before 4: `len` above L, then not, without a frame";
    nine_before(maker, words, on(12, 0), (over([0, 1, 1]), 4))?;
    tell(maker, REFUSED)?;
    DONE.iter().try_for_each(|done| accepted(maker, done))
}

/// An ip that is given is stored in the top frame.
fn accepted(maker: &mut Maker, (words, frames, q, wanted): &Done) -> Made<()> {
    maker.says(words);
    on(12, *frames).stand(maker)?;
    let top = |maker: &Maker| frames.checked_sub(1).map(|top| row(maker, top)[0]);
    let ip = q.caller.or(top(maker));
    let answer = asked(maker, q, 0)?;
    let HostFrame { start, end, .. } = answer.host;
    expect(words, [answer.offset, start, end, maker.state().len], *wanted)?;
    expect(words, top(maker), ip)
}
