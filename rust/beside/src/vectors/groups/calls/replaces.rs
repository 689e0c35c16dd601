//! Replace 9, 4, 5, 2, 3, 7. L is 10 and `len` 6; with one frame the top start is 0, with two it is 2.

use super::super::claims::{asked, expect, row};
use super::super::kinds::{MOST, RESTORE, calling, replace};
use super::super::scene::{Group, HIGH, nine_before, on, tell};
use crate::plain::Request;
use crate::vectors::maker::{Made, Maker};

const GROUPS: &[Group] = &[
    (
        "replace: 4 without a frame; over one it is done",
        &[(on(12, 0), replace([0, 0, 0, 1]), 4), (on(12, 1), replace([0, 0, 0, 1]), 0)],
    ),
    (
        "replace: 4 before 5: without a frame, then over one",
        &[
            (on(12, 0), replace([MOST, 1, 0, MOST]), 4),
            (on(12, 1), replace([MOST, 1, 0, MOST]), 5),
        ],
    ),
    (
        "replace: 5 for params above locals, and for locals above slots, with slots 0 too; all alike it is done",
        &[
            (on(12, 1), replace([0, 2, 1, 2]), 5),
            (on(12, 1), replace([0, 1, 2, 1]), 5),
            (on(12, 1), replace([MOST, 0, 1, 0]), 5),
            (on(12, 1), replace([MOST, 1, 1, 0]), 5),
            (on(12, 1), replace([MOST, 1, 0, 0]), 5),
            (on(12, 1), replace([0, 2, 2, 2]), 0),
        ],
    ),
    (
        "replace: 5 before 2: params above locals, then not",
        &[
            (on(12, 1), replace([MOST, 1, 0, MOST]), 5),
            (on(12, 1), replace([MOST, 1, 1, MOST]), 2),
        ],
    ),
    (
        "replace: 2 before 3 before 7: 13 cells, then 12 and 11, then 10, with a head of 65,535",
        &[
            (on(12, 1), replace([MOST, 0, 0, 13]), 2),
            (on(12, 1), replace([MOST, 0, 0, 12]), 3),
            (on(12, 1), replace([MOST, 0, 0, 11]), 3),
            (on(12, 1), replace([MOST, 0, 0, 10]), 7),
        ],
    ),
    (
        "replace: with M 8 below L 3 never comes: over a frame at 2, 11 and 9 cells are refused with 2, 8 are done",
        &[
            (on(8, 2), replace([0, 0, 0, 9]), 2),
            (on(8, 2), replace([0, 0, 0, 7]), 2),
            (on(8, 2), replace([0, 0, 0, 6]), 0),
        ],
    ),
    (
        "replace: over a frame at 2 the sum counts: 13 cells are refused with 2, 12 and 11 with 3, 10 are done",
        &[
            (on(12, 2), replace([0, 0, 0, 11]), 2),
            (on(12, 2), replace([0, 0, 0, 10]), 3),
            (on(12, 2), replace([0, 0, 0, 9]), 3),
            (on(12, 2), replace([0, 0, 0, 8]), 0),
        ],
    ),
    (
        "replace: 7 is tested on the new `len`, without parameters too: head 11 of 10 cells is refused, 10 is done",
        &[(on(12, 1), replace([11, 0, 0, 10]), 7), (on(12, 1), replace([10, 0, 0, 10]), 0)],
    ),
    (
        "replace: 7 on the new `len` 10: parameters up to 11 are refused, up to 10 done",
        &[(on(12, 1), replace([9, 2, 2, 10]), 7), (on(12, 1), replace([9, 1, 1, 10]), 0)],
    ),
    (
        "replace: 7 on the old `len` 6 where less is needed: head 7 is refused, 6 is done",
        &[(on(12, 1), replace([7, 0, 0, 4]), 7), (on(12, 1), replace([6, 0, 0, 4]), 0)],
    ),
    (
        "replace: 7 on the old `len` 6: parameters up to 7 are refused, up to 6 done",
        &[(on(12, 1), replace([4, 3, 3, 4]), 7), (on(12, 1), replace([3, 3, 3, 4]), 0)],
    ),
    (
        "replace: 7 over a frame at 2 counts the start: head 3 and 2 parameters end at 7 and are refused, head 2 is done",
        &[(on(12, 2), replace([3, 2, 2, 4]), 7), (on(12, 2), replace([2, 2, 2, 4]), 0)],
    ),
    (
        "replace: sums beyond 16 bits: 65,535 and 1, 65,526 and 10; all 65,535 with M 12 and with M 1,048,576",
        &[
            (on(12, 1), replace([MOST, 1, 1, 10]), 7),
            (on(12, 1), replace([65_526, 10, 10, 10]), 7),
            (on(12, 1), replace([MOST, MOST, MOST, MOST]), 2),
            (on(HIGH, 1), replace([MOST, MOST, MOST, MOST]), 3),
        ],
    ),
    (
        "replace: with slots 0 head is not looked at and nothing grows; the ip is replaced",
        &[(on(12, 1), replace([MOST, 0, 0, 0]), 0), (on(12, 2), replace([MOST, 0, 0, 0]), 0)],
    ),
    (
        "replace: over a frame at 2, one parameter that stays, two more locals zeroed",
        &[(on(12, 2), replace([0, 1, 3, 4]), 0)],
    ),
];

pub fn make(maker: &mut Maker) -> Made<()> {
    let any: Request = replace([0, 0, 0, 1]);
    nine_before(
        maker,
        "replace: 9 before 4: `len` above L, then not, without a frame",
        on(12, 0),
        (any, 4),
    )?;
    tell(maker, GROUPS)?;
    ip_of_the_callee(maker)
}

/// Start and debt stay; the frame has the callee's ip, which restore tells.
fn ip_of_the_callee(maker: &mut Maker) -> Made<()> {
    maker.says("replace: the frame keeps its start 2 and its debt 1 and has the callee's ip, 300; a restore tells it");
    on(12, 2).stand(maker)?;
    let offset = asked(maker, &calling(300, replace([1, 1, 2, 4])), 0)?.offset;
    let ip = asked(maker, &RESTORE, 0)?.ip;
    expect("the frame", (offset, row(maker, 1), ip), (2, [300, 2, 1, 1], 300))
}
