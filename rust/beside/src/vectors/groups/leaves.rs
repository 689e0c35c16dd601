//! leaves: conversions to and from the register, alignment, the done slot.

use super::claims::expect;
use crate::vectors::maker::{Made, Maker};

const MOST: u64 = u64::MAX;
const HIGH_BIT: u64 = 1 << 63;

pub fn make(maker: &mut Maker) -> Made<()> {
    maker.file(
        "leaves",
        "Conversions between numbers and the integer register, alignment, and the done slot.",
    );
    for (words, kind, numbers) in CONVERTED {
        maker.says(words);
        numbers.iter().try_for_each(|converted| both_ways(maker, *kind, *converted))?;
    }
    no_type(maker)?;
    for (words, aligned) in ALIGNED {
        maker.says(words);
        aligned
            .iter()
            .try_for_each(|(ip, base, address)| expect(format!("{ip} above {base}"), maker.align(*ip, *base)?, *address))?;
    }
    filled(maker)?;
    kinds_beyond(maker)
}

/// A number (a signed one with its sign in all 64 bits), its register, and another register that reads as the same.
type Converted = [u64; 3];

/// A number below 0.
const fn minus(number: u64) -> u64 {
    number.wrapping_neg()
}

const CONVERTED: &[(&str, u64, &[Converted])] = &[
    ("u8: 0 and 255", 1, &[[0, 0, 256], [255, 255, MOST]]),
    ("u16: 0 and 65,535", 2, &[[0, 0, 0x1_0000], [0xffff, 0xffff, MOST]]),
    ("u32: 0 and 2^32 - 1", 3, &[[0, 0, 1 << 32], [0xffff_ffff, 0xffff_ffff, MOST]]),
    (
        "u64: 0, 2^63 and 2^64 - 1",
        4,
        &[[0, 0, 0], [HIGH_BIT, HIGH_BIT, HIGH_BIT], [MOST, MOST, MOST]],
    ),
    (
        "i8: -128, -1, 0, 1, 127: the register is zero-extended",
        5,
        &[
            [minus(128), 128, MOST - 127],
            [MOST, 255, MOST],
            [0, 0, 256],
            [1, 1, 0x101],
            [127, 127, MOST - 128],
        ],
    ),
    (
        "i16: -32,768, -1, 0, 1, 32,767",
        6,
        &[
            [minus(0x8000), 0x8000, minus(0x8000)],
            [MOST, 0xffff, MOST],
            [0, 0, 0x1_0000],
            [1, 1, 0x1_0001],
            [0x7fff, 0x7fff, minus(0x8001)],
        ],
    ),
    (
        "i32: -2^31, -1, 0, 1, 2^31 - 1",
        7,
        &[
            [minus(1 << 31), 1 << 31, minus(1 << 31)],
            [MOST, 0xffff_ffff, MOST],
            [0, 0, 1 << 32],
            [1, 1, (1 << 32) + 1],
            [(1 << 31) - 1, (1 << 31) - 1, minus((1 << 31) + 1)],
        ],
    ),
    (
        "i64: -2^63, -1, 0, 1, 2^63 - 1",
        8,
        &[
            [HIGH_BIT, HIGH_BIT, HIGH_BIT],
            [MOST, MOST, MOST],
            [0, 0, 0],
            [1, 1, 1],
            [HIGH_BIT - 1, HIGH_BIT - 1, HIGH_BIT - 1],
        ],
    ),
    (
        "bool: 0, and 1, as which any register but 0 reads",
        9,
        &[[0, 0, 0], [1, 1, 2], [1, 1, 256], [1, 1, 1 << 32], [1, 1, HIGH_BIT], [1, 1, MOST]],
    ),
];

/// To its register, and back from it and from the other.
fn both_ways(maker: &mut Maker, kind: u64, [number, register, other]: Converted) -> Made<()> {
    let what = format!("type {kind}, {number:#x}");
    expect(&what, maker.into_register(kind, number)?, register)?;
    expect(&what, maker.from_register(kind, register)?, number)?;
    expect(&what, maker.from_register(kind, other)?, number)
}

/// Bits beyond a type are not looked at, and what is no type is u64.
fn no_type(maker: &mut Maker) -> Made<()> {
    maker.says("into: bits beyond the type are not looked at: all bits but the lowest 8, 16 and 32; of a bool any number but 0 is 1");
    for kind in [1, 2, 3, 5, 6, 7] {
        let width = 4 << if kind > 4 { kind - 4 } else { kind };
        expect("into", maker.into_register(kind, MOST << width)?, 0)?;
    }
    expect("into", maker.into_register(9, HIGH_BIT)?, 1)?;
    maker.says("a type that is none of the nine is taken as u64");
    for kind in [0, 10, 1 << 32 | 1, MOST] {
        expect("into", maker.into_register(kind, MOST - 1)?, MOST - 1)?;
        expect("from", maker.from_register(kind, HIGH_BIT)?, HIGH_BIT)?;
    }
    Ok(())
}

/// An ip, a base, and the address; none is 15.
type Aligned = (u64, u64, Option<u64>);

const ALIGNED: &[(&str, &[Aligned])] = &[
    (
        "align: base 1000: at the base, one and 8 above it, and one below, which is 15",
        &[
            (1000, 1000, Some(1000)),
            (1001, 1000, Some(1008)),
            (1003, 1000, Some(1008)),
            (1007, 1000, Some(1008)),
            (1008, 1000, Some(1008)),
            (1009, 1000, Some(1016)),
            (999, 1000, None),
            (0, 1000, None),
            (0, 1, None),
        ],
    ),
    (
        "align: the distance is rounded, not the address: bases that are no multiple of 8",
        &[
            (1003, 1003, Some(1003)),
            (1004, 1003, Some(1011)),
            (1011, 1003, Some(1011)),
            (1012, 1003, Some(1019)),
        ],
    ),
    (
        "align: at the largest number: above it is 15",
        &[
            (MOST, 7, Some(MOST)),
            (MOST, 8, None),
            (MOST - 7, 0, Some(MOST - 7)),
            (MOST - 6, 0, None),
            (MOST, MOST, Some(MOST)),
            (MOST, MOST - 1, None),
            (MOST, MOST - 8, Some(MOST)),
            (MOST - 1, MOST - 8, Some(MOST)),
            (0, MOST, None),
            (0, 0, Some(0)),
        ],
    ),
];

/// A returned one has an offset, one out of fuel the amount needed.
const REASONS: [(&str, [u64; 2]); 7] = [
    ("returned 7", [1, 7]),
    ("returned 0", [1, 0]),
    ("returned 2^64 - 1", [1, MOST]),
    ("host error", [2, 0]),
    ("out of fuel 9", [3, 9]),
    ("out of fuel 2^64 - 1", [3, MOST]),
    ("error", [4, 0]),
];

/// An empty slot, and one with each reason: filled and taken.
fn filled(maker: &mut Maker) -> Made<()> {
    maker.says("done slot: a take of an empty slot is 13; it takes each reason");
    expect("take", maker.take([0, 0])?, 13)?;
    for (name, reason) in REASONS {
        expect(name, maker.fill([0, 0], reason)?, 0)?;
    }
    for (name, slot) in REASONS {
        maker.says(&format!(
            "done slot: filled with {name}: a take hands it back; any fill is 12, and it keeps the old reason"
        ));
        expect(name, maker.take(slot)?, 0)?;
        for (other, reason) in REASONS {
            expect(other, maker.fill(slot, reason)?, 12)?;
        }
    }
    Ok(())
}

/// As a host may give them.
fn kinds_beyond(maker: &mut Maker) -> Made<()> {
    maker.says("done slot: a reason of kind 0 or above 4 is an error, and so is a slot of a kind above 4; the two errors carry no number");
    for reason in [[0, 0], [0, 3], [2, 3], [4, 3], [5, 0], [MOST, 3]] {
        expect("fill", maker.fill([0, 0], reason)?, 0)?;
    }
    for slot in [[2, 3], [4, 3], [5, 0], [MOST, 3]] {
        expect("take", maker.take(slot)?, 0)?;
        expect("fill", maker.fill(slot, [1, 1])?, 12)?;
    }
    maker.says("done slot: one of kind 0 is empty, whatever the number beside it");
    expect("take", maker.take([0, 3])?, 13)?;
    expect("fill", maker.fill([0, 3], [1, 1])?, 0)
}
