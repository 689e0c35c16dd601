//! A good record of each kind written in the middle of 50 bytes that all hold 0xee, and read there.

use super::super::claims::expect;
use super::good::asked_by;
use crate::plain::KINDS;
use crate::reading::RECORD_BYTES;
use crate::vectors::maker::{Made, Maker};

const FILL: u8 = 0xee;
const NO_KINDS: [u64; 5] = [0, 10, 255, 257, u64::MAX];

pub fn make(maker: &mut Maker) -> Made<()> {
    maker.says("a request of no kind is not written: 10, and no byte changes");
    fill(maker);
    for kind in NO_KINDS {
        expect("no kind", maker.write(50, 3, &asked_by(kind))?, 10)?;
    }
    for (kind, name) in (1..).zip(KINDS) {
        maker.says(&format!("{name}: written at 3, where byte k of the record is 0xc0 + k, and read"));
        let q = asked_by(kind);
        expect(name, maker.write(50, 3, &q)?, 0)?;
        expect(name, maker.read(50, 3)?, Some(q))?;
    }
    Ok(())
}

/// Two records' bytes.
pub fn fill(maker: &mut Maker) {
    [0, 1].iter().for_each(|index| maker.lay(*index, &[FILL; RECORD_BYTES]));
}
