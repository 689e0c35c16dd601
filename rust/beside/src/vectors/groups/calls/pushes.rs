//! Push 9, 2 (depth), 4 or 6, 5, 2, 3. L is 10 and `len` 6; with one frame the top start is 0, with two it is 2.

use super::super::claims::{asked, expect, row};
use super::super::kinds::{IP, MOST, RESTORE, calling, push};
use super::super::scene::{FLAT, Group, HIGH, nine_before, on, tell};
use crate::plain::Request;
use crate::vectors::maker::{Made, Maker};

const ONE: Request = push(IP, [0, 0, 0, 1]);
const FIRST: Request = push(None, [0, 0, 0, 1]);

/// A push over a frame.
const fn over(counts: [u16; 4]) -> Request {
    push(IP, counts)
}

const REFUSED: &[Group] = &[
    (
        "push: 2 with as many frames as D; with one fewer it is done",
        &[(on(12, 3), ONE, 2), (on(12, 2), ONE, 0)],
    ),
    (
        "push: 2 (depth) before 4: D 0, then D 3, without a frame",
        &[(FLAT, ONE, 2), (on(12, 0), ONE, 4)],
    ),
    (
        "push: 2 (depth) before 6: three frames of 3, then two",
        &[(on(12, 3), FIRST, 2), (on(12, 2), FIRST, 6)],
    ),
    (
        "push: 4 for a caller ip without a frame; without the ip it is done",
        &[(on(12, 0), ONE, 4), (on(12, 0), FIRST, 0)],
    ),
    (
        "push: 4 before 5: with the ip, then without it",
        &[(on(12, 0), over([0, 1, 0, 1]), 4), (on(12, 0), push(None, [0, 1, 0, 1]), 5)],
    ),
    (
        "push: 6 without a caller ip over a frame; with it it is done",
        &[(on(12, 1), FIRST, 6), (on(12, 1), ONE, 0)],
    ),
    (
        "push: 6 before 5: without the ip, then with it",
        &[(on(12, 1), push(None, [0, 1, 0, 1]), 6), (on(12, 1), over([0, 1, 0, 1]), 5)],
    ),
    (
        "push: 5 for params above locals, and for locals above slots; all alike it is done",
        &[
            (on(12, 1), over([0, 2, 1, 2]), 5),
            (on(12, 1), over([0, 1, 2, 1]), 5),
            (on(12, 1), over([0, 0, 1, 0]), 5),
            (on(12, 1), over([0, 2, 2, 2]), 0),
        ],
    ),
    (
        "push: 5 for slots 0 with a head; without one it is done",
        &[(on(12, 1), over([1, 0, 0, 0]), 5), (on(12, 1), over([0, 0, 0, 0]), 0)],
    ),
    (
        "push: 5 before 2 (height): params above locals, then not",
        &[(on(12, 1), over([0, 1, 0, MOST]), 5), (on(12, 1), over([0, 0, 0, MOST]), 2)],
    ),
    (
        "push: 2 where M 12 and L 10 are both passed, before 3 where only L is: 13, 12 and 11 cells; 10 are done",
        &[
            (on(12, 1), over([0, 0, 0, 13]), 2),
            (on(12, 1), over([0, 0, 0, 12]), 3),
            (on(12, 1), over([0, 0, 0, 11]), 3),
            (on(12, 1), over([0, 0, 0, 10]), 0),
        ],
    ),
    (
        "push: with M 8 below L 3 never comes: 11 and 9 cells are refused with 2, 8 are done",
        &[
            (on(8, 1), over([2, 0, 0, 9]), 2),
            (on(8, 1), over([2, 0, 0, 7]), 2),
            (on(8, 1), over([2, 0, 0, 6]), 0),
        ],
    ),
    (
        "push: with M and L 10: 11 cells are refused with 2, 10 are done",
        &[(on(10, 1), over([2, 0, 0, 9]), 2), (on(10, 1), over([2, 0, 0, 8]), 0)],
    ),
    (
        "push: over a frame at 2 the sum counts: 11 cells are refused with 3, 10 are done",
        &[(on(12, 2), over([4, 0, 0, 5]), 3), (on(12, 2), over([4, 0, 0, 4]), 0)],
    ),
    (
        "push: sums beyond 16 bits, with M 12 and then with M 1,048,576",
        &[
            (on(12, 1), over([MOST, 0, 0, 1]), 2),
            (on(12, 1), over([MOST, MOST, MOST, MOST]), 2),
            (on(HIGH, 1), over([MOST, 0, 0, 1]), 3),
            (on(HIGH, 1), over([MOST, MOST, MOST, MOST]), 3),
        ],
    ),
];

pub fn make(maker: &mut Maker) -> Made<()> {
    nine_before(maker, "push: 9 before 2 (depth): `len` above L, then not", on(12, 3), (ONE, 2))?;
    tell(maker, REFUSED)?;
    DONE.iter().try_for_each(|done| accepted(maker, done))?;
    ip_of_the_callee(maker)
}

/// What an accepted push shows, over how many frames, the push, and the start and the `len` that it gives.
type Done = (&'static str, usize, Request, [u64; 2]);

const DONE: &[Done] = &[
    ("push: a first one may have a head: start 3", 0, push(None, [3, 0, 0, 1]), [3, 6]),
    (
        "push: without slots nothing grows, and the start is the top start",
        2,
        over([0, 0, 0, 0]),
        [2, 6],
    ),
    (
        "push: the start is the top start and the head; what is needed already is there",
        2,
        over([2, 0, 2, 2]),
        [4, 6],
    ),
    ("push: a start at `len`", 1, over([6, 0, 0, 1]), [6, 7]),
    (
        "push: a start above `len` but below L; two cells are skipped",
        1,
        over([8, 0, 1, 2]),
        [8, 10],
    ),
    (
        "push: one parameter, two more locals zeroed, two more slots",
        1,
        over([4, 1, 3, 5]),
        [4, 9],
    ),
];

fn accepted(maker: &mut Maker, (words, frames, q, wanted): &Done) -> Made<()> {
    maker.says(words);
    on(12, *frames).stand(maker)?;
    let offset = asked(maker, q, 0)?.offset;
    expect(words, [offset, maker.state().len], *wanted)
}

/// The caller's ip goes to the frame below; the new frame has the callee's, which restore tells.
fn ip_of_the_callee(maker: &mut Maker) -> Made<()> {
    maker.says("push: the caller's ip 130 is stored in the frame below, the new frame has the callee's, 300; a restore tells it");
    on(12, 1).stand(maker)?;
    asked(maker, &calling(300, push(Some(130), [1, 0, 0, 1])), 0)?;
    let ip = asked(maker, &RESTORE, 0)?.ip;
    expect("the ips", [row(maker, 0)[0], row(maker, 1)[0], ip], [130, 300, 300])
}
