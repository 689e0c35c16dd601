//! registers: openings at both sides of each limit, and the three registers from a register sync to a reset, by bits.

use super::claims::{all_asked, asked, expect, opened};
use super::kinds::{IP, RESET, RESTORE, host, naming, pop, push, replace, return_host, set, sync};
use crate::plain::{Answer, Regs, Request, State};
use crate::vectors::maker::{Made, Maker};

const MOST: u64 = u64::MAX;

pub fn make(maker: &mut Maker) -> Made<()> {
    maker.file(
        "registers",
        "Openings at both sides of each limit, and the three registers from a register sync to a reset, by bits.",
    );
    for (words, openings) in OPENINGS {
        maker.says(words);
        openings.iter().try_for_each(|(opening, number)| opens(maker, *opening, *number))?;
    }
    maker.sums();
    for (words, openings) in WIDE {
        maker.says(words);
        openings.iter().try_for_each(|(opening, number)| opens(maker, *opening, *number))?;
    }
    maker.full();
    FLOATS.iter().try_for_each(|(words, regs)| kept(maker, words, *regs))?;
    by_every_request(maker)
}

/// What is shown, and openings (bytes, depth, words, cells) with their numbers.
type Openings = (&'static str, &'static [([u64; 4], u64)]);

const OPENINGS: &[Openings] = &[
    (
        "open: bytes are divided by 8 rounding down",
        &[([80, 3, 12, 4], 0), ([15, 3, 12, 4], 0), ([16, 3, 12, 4], 0), ([7, 3, 12, 4], 0)],
    ),
    (
        "open: up to 8,388,608 bytes; the limit is tested before the division",
        &[
            ([8_388_607, 1, 4, 1], 0),
            ([8_388_608, 1, 4, 1], 0),
            ([8_388_609, 1, 4, 1], 14),
            ([8_388_615, 1, 4, 1], 14),
            ([8_388_616, 1, 4, 1], 14),
            ([MOST, 1, 4, 1], 14),
        ],
    ),
    (
        "open: D, M and L may each be 0",
        &[([0, 0, 0, 0], 0), ([80, 0, 0, 0], 0), ([0, 3, 12, 0], 0), ([0, 0, 12, 4], 0)],
    ),
    (
        "open: four words for each frame, and more are fine",
        &[
            ([80, 3, 12, 4], 0),
            ([80, 3, 13, 4], 0),
            ([80, 3, 11, 4], 14),
            ([80, 2, 11, 4], 0),
            ([80, 4, 12, 4], 14),
            ([80, 1, 4, 4], 0),
            ([80, 1, 3, 4], 14),
            ([80, 1, 0, 4], 14),
        ],
    ),
    (
        "open: depths beyond their limit, some of which would wrap in their fourfold",
        &[
            ([80, 65_537, 12, 4], 14),
            ([80, 1 << 62, 12, 4], 14),
            ([80, (1 << 62) + 3, 12, 4], 14),
            ([80, 1 << 63, 0, 0], 14),
            ([80, MOST, 12, 4], 14),
        ],
    ),
];

const WIDE: &[Openings] = &[
    (
        "open: D 65,536 and 65,537 with words for both, then 65,536 with its words and with one fewer",
        &[
            ([80, 65_536, 262_148, 10], 0),
            ([80, 65_537, 262_148, 10], 14),
            ([80, 65_536, 262_144, 10], 0),
            ([80, 65_536, 262_143, 10], 14),
        ],
    ),
    (
        "open: D 64 with 256 words and with one fewer, and D 65; 64 cells",
        &[([80, 64, 256, 64], 0), ([80, 64, 255, 64], 14), ([80, 65, 256, 64], 14)],
    ),
];

/// An opening, then a push and a register sync. A refused one leaves a state of zeros: all is 9 where anything is lent, else it is a stack
/// without room for a frame.
fn opens(maker: &mut Maker, opening: [u64; 4], number: u64) -> Made<()> {
    let [bytes, depth, words, cells] = opening;
    expect(format!("{opening:?}"), maker.open(opening)?, number)?;
    let state = State {
        depth,
        height: bytes / 8,
        words,
        cells,
        ..State::default()
    };
    let zeros = number == 14;
    expect("the state", *maker.state(), if zeros { State::default() } else { state })?;
    let nothing_lent = words == 0 && cells == 0;
    let pushed = match (zeros, nothing_lent, depth) {
        (true, false, _) => 9,
        (true, true, _) | (false, _, 0) => 2,
        _ => 0,
    };
    asked(maker, &push(None, [0, 0, 0, 0]), pushed)?;
    let synced = if zeros && !nothing_lent { 9 } else { 0 };
    expect("register sync", maker.registers(SYNCED)?.number, synced)
}

const SYNCED: Regs = Regs {
    ireg: 5,
    freg32: 0x3fc0_0000,
    freg64: 0x4004_0000_0000_0000,
};

const FLOATS: [(&str, Regs); 8] = [
    ("2^64 - 1, 1.5, 2.5", Regs { ireg: MOST, ..SYNCED }),
    ("2^63, -1.5, -2.25", bits(1 << 63, 0xbfc0_0000, 0xc002_0000_0000_0000)),
    ("1, -0.0, -0.0", bits(1, 0x8000_0000, 0x8000_0000_0000_0000)),
    ("0, infinity, infinity", bits(0, 0x7f80_0000, 0x7ff0_0000_0000_0000)),
    ("0, -infinity, -infinity", bits(0, 0xff80_0000, 0xfff0_0000_0000_0000)),
    ("0, a NaN, a NaN", bits(0, 0x7fc0_0000, 0x7ff8_0000_0000_0000)),
    ("the smallest above 0", bits(0, 1, 1)),
    ("the largest", bits(0, 0x7f7f_ffff, 0x7fef_ffff_ffff_ffff)),
];

const fn bits(ireg: u64, freg32: u32, freg64: u64) -> Regs {
    Regs { ireg, freg32, freg64 }
}

/// Over no frame; over one it is refused, for it gives no ip.
const CALL: Request = naming(Some(1), push(None, [0, 0, 2, 3]));

/// Handed back by restore alone, with every bit, and zeros again after a reset.
fn kept(maker: &mut Maker, words: &str, regs: Regs) -> Made<()> {
    maker.says(&format!(
        "registers: {words}: kept by a push, a refused one, a restore, which hands them back, and a pop; zeros after a reset"
    ));
    opened(maker, [80, 2, 8, 4])?;
    expect("register sync", maker.registers(regs)?, Answer::of(0))?;
    for (q, number) in [(CALL, 0), (CALL, 6), (RESTORE, 0), (pop(1), 1)] {
        let handed = asked(maker, &q, number)?.regs;
        let restored = if q == RESTORE { regs } else { Regs::default() };
        expect("handed back", handed, restored)?;
        expect("kept", maker.state().regs, regs)?;
    }
    asked(maker, &RESET, 0)?;
    expect("after a reset", maker.state().regs, Regs::default())
}

/// Each kind but reset, accepted.
fn by_every_request(maker: &mut Maker) -> Made<()> {
    maker.says("registers: kept by every kind but reset; a second register sync stores all three anew");
    opened(maker, [80, 2, 8, 4])?;
    maker.registers(FLOATS[2].1)?;
    maker.registers(FLOATS[1].1)?;
    all_asked(
        maker,
        &[
            (CALL, 0),
            (set(1, 9), 0),
            (sync(110), 0),
            (host(IP, [1, 1, 2]), 0),
            (push(IP, [1, 0, 1, 2]), 0),
            (replace([1, 1, 2, 2]), 0),
            (return_host([0, 1, 1]), 0),
            (pop(1), 1),
        ],
    )?;
    expect("kept", maker.state().regs, FLOATS[1].1)
}
