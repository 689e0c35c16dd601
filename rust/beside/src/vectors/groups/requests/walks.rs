//! Traces walked: document 01's example, the same with two bad records, whole and cut short; and places that are not 40 bytes apart.

use super::super::claims::expect;
use super::super::kinds::{RESET, pop, set};
use crate::example::{P, Q};
use crate::plain::Request;
use crate::reading::RECORD_BYTES;
use crate::vectors::maker::{Made, Maker};

const EXAMPLE: [Request; 5] = [P, Q, pop(2), pop(2), pop(2)];
const LENGTHS: [usize; 12] = [200, 199, 161, 160, 159, 80, 79, 41, 40, 39, 1, 0];

pub fn make(maker: &mut Maker) -> Made<()> {
    maker.says("the example: the bytes of its two pushes and of its pop, written at 0 and read");
    for q in &EXAMPLE[..3] {
        expect("written", maker.write(40, 0, q)?, 0)?;
        expect("read", maker.read(40, 0)?, Some(*q))?;
    }
    maker.says("the example: its five records in 200 bytes, read one after another; at the end and beyond there is none");
    for (q, at) in EXAMPLE.iter().zip((0..).step_by(RECORD_BYTES)) {
        expect("written", maker.write(200, at, q)?, 0)?;
    }
    walk(maker, 200, &[])?;
    for at in [200, 201, 240] {
        expect("beyond the end", maker.read(200, at)?, None)?;
    }
    cut(maker)?;
    places(maker)
}

/// A spare byte of record 1 is 1, and record 3 has kind 0.
fn cut(maker: &mut Maker) -> Made<()> {
    maker.says("the example with records 1 and 3 bad");
    maker.byte(55, 1);
    maker.byte(120, 0);
    for length in LENGTHS {
        maker.says(&format!(
            "its first {length} bytes, walked: a bad record is 10, a short last one too"
        ));
        walk(maker, length, &[1, 3])?;
    }
    Ok(())
}

/// Every record that begins before the end; behind the last whole one nothing is read.
fn walk(maker: &mut Maker, length: usize, bad: &[usize]) -> Made<()> {
    for (i, q) in EXAMPLE.iter().enumerate().take_while(|(i, _)| i * RECORD_BYTES <= length) {
        let whole = (i + 1) * RECORD_BYTES <= length;
        let wanted = (whole && !bad.contains(&i)).then_some(*q);
        let at = i * RECORD_BYTES;
        expect(format!("{length} bytes, at {at}"), maker.read(length, at as u64)?, wanted)?;
    }
    Ok(())
}

/// A set at 7 and a pop in the last 40 of 100 bytes that hold 0xee.
fn places(maker: &mut Maker) -> Made<()> {
    maker.says("100 bytes of 0xee: a reset does not fit at 61 nor at 2^64 - 1; a set is written at 7, a pop at 60");
    [0, 1, 2].iter().for_each(|index| maker.lay(*index, &[0xee; RECORD_BYTES]));
    for (at, q, number) in [(61, RESET, 10), (u64::MAX, RESET, 10), (7, set(8, 9), 0), (60, pop(6), 0)] {
        expect(format!("written at {at}"), maker.write(100, at, &q)?, number)?;
    }
    maker.says("they are read at 7 and at 60, and nowhere near");
    for at in [6, 7, 8, 59, 60, 61, 99, 100, 101, u64::MAX] {
        let wanted = match at {
            7 => Some(set(8, 9)),
            60 => Some(pop(6)),
            _ => None,
        };
        expect(format!("read at {at}"), maker.read(100, at)?, wanted)?;
    }
    Ok(())
}
