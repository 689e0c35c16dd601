//! One million records, and one more: 32 resets, replayed again and again.

use super::super::bytes::record;
use super::super::claims::expect;
use super::records::{PUSH, RESET};
use super::{bytes, fuelled, stand};
use crate::plain::Replay;
use crate::vectors::maker::{Made, Maker};

const BLOCK: usize = 32;
const MILLION: u64 = 1_000_000;

pub fn make(maker: &mut Maker) -> Made<()> {
    maker.says("32 resets");
    (0..BLOCK).for_each(|index| maker.lay(index, &record(RESET)));
    maker.says("all but 32 of a million resets, the last 32, one more, which is stopped before, and 32 after it");
    stand(maker)?;
    let nearly = maker.replay(fuelled(MILLION), bytes(0, BLOCK), MILLION / 32 - 1)?;
    let whole = maker.replay(nearly, bytes(0, BLOCK), 1)?;
    expect("a million", (whole.number, whole.spent, whole.stopped), (MILLION, MILLION, None))?;
    let stopped = maker.replay(whole, bytes(0, 1), 1)?;
    expect("one more", stopped.stopped, Some(1))?;
    expect("after it", maker.replay(stopped, bytes(0, BLOCK), 1)?, stopped)?;
    one_less(maker, nearly)
}

fn one_less(maker: &mut Maker, nearly: Replay) -> Made<()> {
    maker.says("31 of the last 32, with 1 left; then a push of cost 4 is stopped before");
    let near = maker.replay(nearly, bytes(0, BLOCK - 1), 1)?;
    expect("one less", [near.number, near.spent], [MILLION - 1, MILLION - 1])?;
    maker.lay(0, &record(PUSH));
    let stopped = maker.replay(near, bytes(0, 1), 1)?;
    expect("the push", stopped.stopped, Some(4))
}
