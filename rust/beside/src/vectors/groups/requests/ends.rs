//! Every kind with every number given and absent, at the ends of their types among others: written and read again.

use super::super::claims::expect;
use super::super::kinds::{HIGH_BIT, RESET, RESTORE, calling, host, naming, pop, push, replace, return_host, set, sync};
use crate::plain::Request;
use crate::vectors::maker::{Made, Maker};

const MOST: u64 = u64::MAX;
const LOW: [u16; 4] = [0, 0xffff, 1, 0x8000];
const HIGH: [u16; 4] = [0xffff, 0x102, 0xff00, 0];

const REQUESTS: [Request; 17] = [
    calling(0, push(None, LOW)),
    calling(MOST, push(Some(0), HIGH)),
    naming(Some(0), calling(HIGH_BIT, push(None, LOW))),
    naming(Some(MOST - 1), calling(3, push(Some(MOST), HIGH))),
    pop(MOST),
    pop(0),
    calling(MOST, replace(HIGH)),
    naming(Some(MOST), calling(0, replace(LOW))),
    host(None, [0xffff, 0, 0xfffe]),
    host(Some(1 << 40), [0, 0xffff, 5]),
    return_host([0xfffd, 0xffff, 0]),
    naming(Some(MOST), return_host([1, 2, 0xfeff])),
    sync(MOST),
    sync(0),
    RESTORE,
    RESET,
    set(0xffff, MOST),
];

pub fn make(maker: &mut Maker) -> Made<()> {
    maker.says("every kind there and back, with numbers at the ends of their types; a number that is given may be 0");
    for q in &REQUESTS {
        expect(format!("{q:?} written"), maker.write(40, 0, q)?, 0)?;
        expect("read", maker.read(40, 0)?, Some(*q))?;
    }
    Ok(())
}
