//! Two records cut at every place: a push over another frame, of which few bytes are 0, and the pop of it, over and over on one tape.
//!
//! In blocks of a byte more than the two have, each pair is cut one byte later than the one before it.

use super::super::bytes::Fields;
use super::super::claims::expect;
use super::super::replays::lay;
use super::super::replays::records::EXAMPLE;
use super::{begun, ended, fed, stand};
use crate::vectors::maker::{Made, Maker};

const CALLER: u64 = 0x1112_1314_1516_1718;
const CALLEE: u64 = 0x2122_2324_2526_2728;
const INSTANCE: u64 = 0x3132_3334_3536_3738;
const PUSH: Fields = [1, 3, 2, 1, 2, 3, 0, CALLER, CALLEE, INSTANCE];
const POP: Fields = [2, 2, 0, 0, 0, 0, 0, 0, 0, 0x4142_4344_4546_4748];

/// What the records cost.
const FIRST: u64 = 3;
const PUSHED: u64 = 2;
const POPPED: u64 = 1;

/// Where the pairs begin, and the bytes of one.
const FROM: usize = 40;
const PAIR: usize = 80;

pub fn make(maker: &mut Maker) -> Made<()> {
    maker.says("a push, and twice a push over it with few bytes of 0 and its pop; the first push is replayed");
    lay(maker, &[EXAMPLE[0], PUSH, POP, PUSH, POP]);
    stand(maker, begun(1000))?;
    fed(maker, 0..FROM, [1, FIRST, 0])?;
    maker.says("81 times the second push and its pop, in 80 blocks of 81 bytes: the first pair is cut before it, each other a byte later, the last behind it");
    for block in 0..PAIR {
        longer_than_two(maker, block)?;
    }
    ended(maker, [163, 246, 0])
}

/// The bytes are the same every 80, so each block begins a byte later than the one before it.
fn longer_than_two(maker: &mut Maker, block: usize) -> Made<()> {
    let bytes = (PAIR + 1) * (block + 1);
    let (records, held) = ((bytes / 40) as u64, (bytes % 40) as u64);
    let (pushes, pops) = (records.div_ceil(2), records / 2);
    let spent = FIRST + PUSHED * pushes + POPPED * pops;
    fed(maker, FROM + block..FROM + block + PAIR + 1, [1 + records, spent, held])?;
    expect(format!("block {block}"), maker.state().count, 1 + pushes - pops)
}
