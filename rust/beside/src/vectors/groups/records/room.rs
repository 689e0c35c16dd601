//! Both sides of each length and place. What is read is a restore, one byte 7 among zeros, at that place; what is written is document 01's
//! first push.

use super::super::claims::expect;
use super::spelled::fill;
use crate::example::{NOTHING, P};
use crate::plain::Request;
use crate::reading::RECORD_BYTES;
use crate::vectors::maker::{Made, Maker};

const LENGTHS: [usize; 7] = [0, 1, 39, 40, 41, 79, 80];
const PLACES: [u64; 6] = [0, 1, 39, 40, 41, u64::MAX];

const RESTORE: Request = Request { kind: 7, ..NOTHING };

pub fn make(maker: &mut Maker) -> Made<()> {
    for length in LENGTHS {
        maker.says(&format!("room: a restore read in {length} bytes, at 0, 1, 39, 40, 41 and 2^64 - 1"));
        [0, 1].iter().for_each(|index| maker.lay(*index, &[0; RECORD_BYTES]));
        PLACES.iter().try_for_each(|at| read(maker, length, *at))?;
    }
    for length in LENGTHS {
        maker.says(&format!(
            "room: a push written into {length} bytes at the same places; a refused one changes no byte"
        ));
        fill(maker);
        PLACES.iter().try_for_each(|at| written(maker, length, *at))?;
    }
    Ok(())
}

/// Whether 40 bytes are left there.
fn fits(length: usize, at: u64) -> bool {
    at.checked_add(RECORD_BYTES as u64).is_some_and(|end| end <= length as u64)
}

fn read(maker: &mut Maker, length: usize, at: u64) -> Made<()> {
    let place = (at < 80).then_some(at as usize);
    place.iter().for_each(|place| maker.byte(*place, 7));
    let wanted = fits(length, at).then_some(RESTORE);
    expect(format!("{length} bytes, read at {at}"), maker.read(length, at)?, wanted)?;
    place.iter().for_each(|place| maker.byte(*place, 0));
    Ok(())
}

/// An accepted write is read again, and the bytes filled anew.
fn written(maker: &mut Maker, length: usize, at: u64) -> Made<()> {
    let number = if fits(length, at) { 0 } else { 10 };
    expect(format!("{length} bytes, written at {at}"), maker.write(length, at, &P)?, number)?;
    if number == 0 {
        expect("what was written", maker.read(length, at)?, Some(P))?;
        fill(maker);
    }
    Ok(())
}
