//! The flags: which values read well, in a record whose fields are 0 and in one whose fields are not.

use super::super::bytes::record;
use super::super::claims::expect;
use super::good::good;
use crate::plain::KINDS;
use crate::vectors::maker::{Made, Maker};

/// Of each kind, the flags of a record whose fields are 0, and those of one whose used fields are not; restore and reset use none.
const ALLOWED: [(&[u8], &[u8]); 9] = [
    (&[0, 1, 2, 3], &[3]),
    (&[2], &[2]),
    (&[0, 2], &[2]),
    (&[0, 1], &[1]),
    (&[2], &[2]),
    (&[0], &[0]),
    (&[0], &[]),
    (&[0], &[]),
    (&[0], &[0]),
];

/// All of four bits, each of the other four, and all.
const SOME: [u8; 21] = [0, 1, 2, 3, 4, 5, 6, 7, 8, 9, 10, 11, 12, 13, 14, 15, 16, 32, 64, 128, 255];

pub fn make(maker: &mut Maker) -> Made<()> {
    for ((kind, name), (blank, full)) in (1..).zip(KINDS).zip(ALLOWED) {
        let all: Vec<u8> = if kind == 1 { (0..=u8::MAX).collect() } else { SOME.to_vec() };
        maker.says(&format!("flags of a {name} whose fields are 0: {} and no other", listed(blank)));
        maker.lay(0, &record([kind, 0, 0, 0, 0, 0, 0, 0, 0, 0]));
        each(maker, &all, blank)?;
        if !full.is_empty() {
            maker.says(&format!("flags of a {name} whose used fields are not 0: {} alone", listed(full)));
            maker.lay(0, &good(kind));
            each(maker, &SOME[..8], full)?;
        }
    }
    maker.says("a kind that is none of the nine, whatever its flags: 0, 10 and 255");
    for kind in [0, 10, 255] {
        maker.lay(0, &record([kind, 0, 0, 0, 0, 0, 0, 0, 0, 0]));
        each(maker, &SOME[..4], &[])?;
    }
    Ok(())
}

fn listed(flags: &[u8]) -> String {
    let flags: Vec<String> = flags.iter().map(u8::to_string).collect();
    flags.join(", ")
}

fn each(maker: &mut Maker, all: &[u8], allowed: &[u8]) -> Made<()> {
    all.iter().try_for_each(|flags| {
        maker.byte(1, *flags);
        let read = maker.read(40, 0)?;
        expect(format!("flags {flags}"), read.is_some(), allowed.contains(flags))
    })
}
