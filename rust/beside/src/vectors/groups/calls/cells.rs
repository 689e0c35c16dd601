//! Which cells push zeroes, and which replace copies and zeroes.

use super::super::claims::{asked, expect};
use super::super::copies::{CopyDown, LONG, SHORT, WIDE};
use super::super::kinds::{IP, push, replace};
use super::super::scene::{CELLS, on};
use crate::vectors::maker::{Made, Maker};

pub fn make(maker: &mut Maker) -> Made<()> {
    zeroed(maker)?;
    SHORT.iter().try_for_each(|copy| replaced(maker, copy))?;
    maker.sums();
    LONG.iter().chain(WIDE).try_for_each(|copy| replaced(maker, copy))?;
    maker.full();
    kept(maker)
}

/// Heads, parameters, locals and slots over a frame at 2.
const ZEROED: [[u16; 4]; 7] = [
    [0, 0, 0, 8],
    [0, 0, 1, 8],
    [0, 3, 5, 8],
    [3, 0, 5, 5],
    [3, 5, 5, 5],
    [7, 0, 1, 1],
    [1, 1, 7, 7],
];

/// From start and params up to, not including, start and locals; a push makes no other cell another.
fn zeroed(maker: &mut Maker) -> Made<()> {
    for [head, params, locals, slots] in ZEROED {
        let (from, to) = (2 + head + params, 2 + head + locals);
        maker.says(&format!(
            "push zeroes the cells from {from} up to, not including, {to}; the others keep what they held"
        ));
        on(12, 2).stand(maker)?;
        let before = maker.world().cells;
        asked(maker, &push(IP, [head, params, locals, slots]), 0)?;
        let cells = (0..).zip(before);
        let wanted: Vec<u64> = cells.map(|(i, cell)| if (from..to).contains(&i) { 0 } else { cell }).collect();
        expect("the cells", maker.world().cells, wanted)?;
    }
    Ok(())
}

/// The parameters are copied to the frame's start as if all were read first, and all behind them is zeroed.
fn replaced(maker: &mut Maker, copy: &CopyDown) -> Made<()> {
    let CopyDown { head, params } = *copy;
    maker.says(&format!("replace copies {}, and zeroes {head} behind them", copy.said()));
    copy.stand(maker)?;
    let locals = head + params;
    asked(maker, &replace([head, params, locals, locals]), 0)?;
    expect("the cells", maker.world().cells, copy.copied(usize::from(head)))
}

/// Growth touches no cell.
fn kept(maker: &mut Maker) -> Made<()> {
    for (words, q) in [
        (
            "push grows to 10 cells and keeps what the newly reached ones held",
            push(IP, [0, 0, 0, 8]),
        ),
        (
            "replace grows to 10 cells and keeps what the newly reached ones held",
            replace([0, 0, 0, 8]),
        ),
    ] {
        maker.says(words);
        on(12, 2).stand(maker)?;
        let before = maker.world().cells;
        asked(maker, &q, 0)?;
        expect(words, (maker.world().cells, maker.state().len), (before, CELLS))?;
    }
    Ok(())
}
