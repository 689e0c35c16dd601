//! Return-host 9, 4, 7, 2, 3. L is 10 and `len` 6; of three frames the tops begin at 0, 2 and 4.

use super::super::claims::{asked, expect};
use super::super::kinds::{MOST, return_host};
use super::super::scene::{Group, HIGH, nine_before, on, tell};
use crate::plain::{HostFrame, Request};
use crate::vectors::maker::{Made, Maker};

const REFUSED: &[Group] = &[
    (
        "return-host: 4 without a frame; with the last one 1",
        &[(on(12, 0), return_host([0, 0, 1]), 4), (on(12, 1), return_host([0, 0, 1]), 1)],
    ),
    (
        "return-host: 4 before 7: without a frame, then with one",
        &[
            (on(12, 0), return_host([MOST, MOST, MOST]), 4),
            (on(12, 1), return_host([MOST, MOST, MOST]), 7),
        ],
    ),
    (
        "return-host: 7 before 2: a head beyond `len`, then at it",
        &[(on(12, 1), return_host([7, 0, 13]), 7), (on(12, 1), return_host([6, 0, 13]), 2)],
    ),
    (
        "return-host: 2 where M 12 and L 10 are both passed, before 3 where only L is: 13, 12 and 11 results; with 10 it is done",
        &[
            (on(12, 1), return_host([6, 0, 13]), 2),
            (on(12, 1), return_host([6, 0, 12]), 3),
            (on(12, 1), return_host([6, 0, 11]), 3),
            (on(12, 1), return_host([6, 0, 10]), 1),
        ],
    ),
    (
        "return-host: 7 is tested on `len` before growth to 13 and to 11 cells: head 65,535 and 5 are refused, 4 is done",
        &[
            (on(12, 1), return_host([MOST, 1, 13]), 7),
            (on(12, 2), return_host([5, 0, 9]), 7),
            (on(12, 2), return_host([4, 0, 8]), 0),
        ],
    ),
    (
        "return-host: 7 for parameters up to 7 of `len` 6; up to 6 it is done",
        &[(on(12, 1), return_host([5, 2, 2]), 7), (on(12, 1), return_host([4, 2, 2]), 1)],
    ),
    (
        "return-host: 7 over a frame at 2 counts the start: up to 7 refused, up to 6 done",
        &[(on(12, 2), return_host([3, 2, 0]), 7), (on(12, 2), return_host([2, 2, 0]), 0)],
    ),
    (
        "return-host: over a frame at 2 the size counts from its start: 13 refused with 2, 11 with 3, 10 done",
        &[
            (on(12, 2), return_host([4, 0, 11]), 2),
            (on(12, 2), return_host([4, 0, 9]), 3),
            (on(12, 2), return_host([4, 0, 8]), 0),
        ],
    ),
    (
        "return-host: with M 8 below L 3 never comes: 11 and 9 results are refused with 2, with 8 the last frame is gone",
        &[
            (on(8, 1), return_host([0, 0, 11]), 2),
            (on(8, 1), return_host([0, 0, 9]), 2),
            (on(8, 1), return_host([0, 0, 8]), 1),
        ],
    ),
    (
        "return-host: with M and L 10: 11 results are refused with 2, with 10 the last frame is gone",
        &[(on(10, 1), return_host([0, 0, 11]), 2), (on(10, 1), return_host([0, 0, 10]), 1)],
    ),
    (
        "return-host: sums beyond 16 bits: 65,535 and 1 or 65,535, 2 and 65,534; 65,535 results with M 12 and with M 1,048,576",
        &[
            (on(12, 1), return_host([MOST, 1, 0]), 7),
            (on(12, 1), return_host([MOST, MOST, 0]), 7),
            (on(12, 2), return_host([65_534, 0, 1]), 7),
            (on(12, 1), return_host([0, 0, MOST]), 2),
            (on(HIGH, 1), return_host([0, 0, MOST]), 3),
        ],
    ),
];

/// What is shown, over how many frames, the request; number, offset, ip, instance; host start and end, `len`.
type Done = (&'static str, usize, Request, [u64; 4], [u64; 3]);

const DONE: &[Done] = &[
    (
        "return-host: both counts 0: whatever the head is, no 7, no growth and a host frame of zeros; the last frame is gone",
        1,
        return_host([MOST, 0, 0]),
        [1, 0, 0, 0],
        [0, 0, 6],
    ),
    (
        "return-host: both counts 0 over two frames: the frame is popped and its debt 1 current",
        2,
        return_host([MOST, 0, 0]),
        [0, 0, 101, 1],
        [0, 0, 6],
    ),
    (
        "return-host: the offset is the caller's start, the host frame begins at the callee's; without a debt the given 5 is handed back",
        3,
        return_host([2, 0, 1]),
        [0, 2, 201, 5],
        [4, 5, 6],
    ),
    (
        "return-host: with the last frame gone the host frame is still there, and `len` grows",
        1,
        return_host([0, 2, 8]),
        [1, 0, 0, 0],
        [0, 8, 8],
    ),
];

pub fn make(maker: &mut Maker) -> Made<()> {
    let words = "return-host: 9 before 4: `len` above L, then not, without a frame";
    nine_before(maker, words, on(12, 0), (return_host([0, 0, 1]), 4))?;
    tell(maker, REFUSED)?;
    DONE.iter().try_for_each(|done| accepted(maker, done))
}

fn accepted(maker: &mut Maker, (words, frames, q, wanted, host): &Done) -> Made<()> {
    maker.says(words);
    on(12, *frames).stand(maker)?;
    let answer = asked(maker, q, wanted[0])?;
    expect(words, [answer.number, answer.offset, answer.ip, answer.instance], *wanted)?;
    let HostFrame { start, end, .. } = answer.host;
    expect(words, [start, end, maker.state().len], *host)
}
