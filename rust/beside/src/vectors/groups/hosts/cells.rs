//! Which cells return-host copies.

use super::super::claims::{asked, expect};
use super::super::copies::{CopyDown, LONG, SHORT, WIDE};
use super::super::kinds::{IP, host, return_host};
use super::super::scene::{CELLS, on};
use crate::vectors::maker::{Made, Maker};

pub fn make(maker: &mut Maker) -> Made<()> {
    kept(maker)?;
    SHORT.iter().try_for_each(|copy| returned(maker, copy))?;
    maker.sums();
    LONG.iter().chain(WIDE).try_for_each(|copy| returned(maker, copy))
}

/// The parameters are copied to the frame's start as if all were read first; nothing is zeroed.
fn returned(maker: &mut Maker, copy: &CopyDown) -> Made<()> {
    let CopyDown { head, params } = *copy;
    maker.says(&format!("return-host copies {}", copy.said()));
    copy.stand(maker)?;
    asked(maker, &return_host([head, params, 0]), 1)?;
    expect("the cells", maker.world().cells, copy.copied(0))
}

/// Growth touches no cell.
fn kept(maker: &mut Maker) -> Made<()> {
    for (words, q) in [
        (
            "host grows to 10 cells and keeps what the newly reached ones held",
            host(IP, [0, 0, 8]),
        ),
        (
            "return-host grows to 10 cells and keeps what the newly reached ones held",
            return_host([0, 0, 8]),
        ),
    ] {
        maker.says(words);
        on(12, 2).stand(maker)?;
        let before = maker.world().cells;
        asked(maker, &q, 0)?;
        expect(words, (maker.world().cells, maker.state().len), (before, CELLS))?;
    }
    Ok(())
}
