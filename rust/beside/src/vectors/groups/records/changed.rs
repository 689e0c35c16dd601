//! A good record of each kind with one byte changed, each of its 40 in turn, and its kind changed to every near one.

use super::super::claims::expect;
use super::good::{fields, good};
use crate::plain::KINDS;
use crate::vectors::maker::{Made, Maker};

/// What a kind uses: of the five counts and three words, by their first byte and their width.
const FIELDS: [(usize, usize); 8] = [(2, 2), (4, 2), (6, 2), (8, 2), (10, 2), (16, 8), (24, 8), (32, 8)];

/// The kinds that each good record may be changed to, its own among them: there the same fields are used, and the flags are good.
const AS_WELL: [&[u8]; 9] = [
    &[1],
    &[2, 1, 3, 5],
    &[3, 1],
    &[4],
    &[5],
    &[6],
    &[7, 1, 3, 4, 6, 8, 9],
    &[8, 1, 3, 4, 6, 7, 9],
    &[9, 1, 3],
];

pub fn make(maker: &mut Maker) -> Made<()> {
    for (kind, name) in (1..).zip(KINDS) {
        maker.says(&format!(
            "a good {name}, then one bit changed in each byte of what it uses: all read well"
        ));
        maker.lay(0, &good(kind));
        expect(name, maker.read(40, 0)?.is_some(), true)?;
        bytes(maker, kind, true)?;
        maker.says(&format!(
            "a good {name}, one bit changed in each other byte but the kind: all are 10"
        ));
        bytes(maker, kind, false)?;
        kinds(maker, kind, name)?;
    }
    Ok(())
}

/// Those that the kind uses, or those that it does not. Over the kinds another bit of each place is changed.
fn bytes(maker: &mut Maker, kind: u64, reads: bool) -> Made<()> {
    let record = good(kind);
    for place in (1..record.len()).filter(|place| used(kind, *place) == reads) {
        maker.byte(place, record[place] ^ 1 << ((place + kind as usize) % 8));
        expect(format!("kind {kind}, byte {place}"), maker.read(40, 0)?.is_some(), reads)?;
        maker.byte(place, record[place]);
    }
    Ok(())
}

/// Whether the place lies in a field that is not 0 in the good record: those are all that the kind uses.
fn used(kind: u64, place: usize) -> bool {
    let fields = &fields(kind)[2..];
    FIELDS
        .iter()
        .zip(fields)
        .any(|((at, width), field)| (*at..at + width).contains(&place) && *field != 0)
}

fn kinds(maker: &mut Maker, kind: u64, name: &str) -> Made<()> {
    maker.says(&format!("a good {name} with its kind changed to 0 to 11, and 255"));
    for other in (0..12).chain([255]) {
        maker.byte(0, other);
        let reads = AS_WELL[kind as usize - 1].contains(&other);
        expect(format!("{name} as {other}"), maker.read(40, 0)?.is_some(), reads)?;
    }
    Ok(())
}
