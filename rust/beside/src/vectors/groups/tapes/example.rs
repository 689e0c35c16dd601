//! Document 01's example in blocks of one size: in the end it is what it is whole.

use super::super::claims::{expect, opened};
use super::super::replays::records::EXAMPLE;
use super::super::replays::{fuelled, lay};
use super::{WORLD, begun, stand};
use crate::plain::Replay;
use crate::reading::{RECORD_BYTES, Reading};
use crate::vectors::maker::{Made, Maker};

const LENGTH: usize = EXAMPLE.len() * RECORD_BYTES;
const FUEL: u64 = 100;

pub fn make(maker: &mut Maker) -> Made<()> {
    maker.says("the example's five records, replayed whole");
    lay(maker, &EXAMPLE);
    opened(maker, WORLD)?;
    let whole = (maker.replay(fuelled(FUEL), 0..LENGTH, 1)?, maker.world());
    for size in [40, 41, 79, 80] {
        like_whole(maker, size, &whole)?;
    }
    maker.sums();
    for size in [39, 7, 1] {
        like_whole(maker, size, &whole)?;
    }
    Ok(())
}

fn like_whole(maker: &mut Maker, size: usize, whole: &(Replay, Reading)) -> Made<()> {
    let bytes = if size == 1 { "byte" } else { "bytes" };
    maker.says(&format!(
        "in blocks of {size} {bytes}, and the end: each record as soon as its 40 bytes are there; in the end as whole"
    ));
    stand(maker, begun(FUEL))?;
    in_blocks(maker, size)?;
    let found = (maker.tape().tape().run, maker.world());
    expect(format!("blocks of {size}"), &found, whole)
}

/// The last block may be shorter.
fn in_blocks(maker: &mut Maker, size: usize) -> Made<()> {
    for from in (0..LENGTH).step_by(size) {
        let to = LENGTH.min(from + size);
        expect("a block", maker.feed(from..to)?, 0)?;
        let found = (maker.tape().number as usize, maker.tape().held as usize);
        expect(format!("{to} bytes"), found, (to / RECORD_BYTES, to % RECORD_BYTES))?;
    }
    maker.finish()?;
    expect("the end", maker.tape().end_flag, 1)
}
