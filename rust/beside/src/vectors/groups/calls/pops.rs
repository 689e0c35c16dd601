//! Pop 9, 4: the frame below with the debt or else the instance given; with the last frame 1.

use super::super::claims::{asked, expect};
use super::super::kinds::pop;
use super::super::scene::{Group, nine_before, on, tell};
use crate::vectors::maker::{Made, Maker};

const GROUPS: &[Group] = &[(
    "pop: 4 without a frame; 1 with the last one",
    &[(on(12, 0), pop(5), 4), (on(12, 1), pop(5), 1)],
)];

pub fn make(maker: &mut Maker) -> Made<()> {
    nine_before(
        maker,
        "pop: 9 before 4: `len` above L, then not, without a frame",
        on(12, 0),
        (pop(5), 4),
    )?;
    tell(maker, GROUPS)?;
    one_after_another(maker)
}

/// The third frame has no debt, so the given 5 is handed back and not stored; the second has 1, which becomes current.
fn one_after_another(maker: &mut Maker) -> Made<()> {
    maker.says("pop: three frames: the newest has no debt, so the given 5 is handed back and not stored; the next has the debt 1; then 1");
    on(12, 3).stand(maker)?;
    for (number, offset, ip, instance, current) in [(0, 2, 201, 5, 2), (0, 0, 101, 1, 1), (1, 0, 0, 0, 1)] {
        let back = asked(maker, &pop(5), number)?;
        let found = (back.offset, back.ip, back.instance, maker.state().current);
        expect("the pop", found, (offset, ip, instance, Some(current)))?;
    }
    expect("len", maker.state().len, 6)
}
