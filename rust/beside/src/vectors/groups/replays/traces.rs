//! Whole traces: the first bytes of document 01's example, with one byte of it changed.

use super::super::claims::{expect, opened};
use super::records::EXAMPLE;
use super::{fuelled, lay};
use crate::plain::Replay;
use crate::vectors::maker::{Made, Maker};

/// Number, spent and stop of a run, and how many frames there are then.
type End = (u64, u64, Option<u64>, u64);

/// A length and fuel, and the end that it comes to.
type Case = (usize, u64, End);

/// What is shown, a place and the byte that is put there, or nothing, and the cases.
type Group = (&'static str, Option<(usize, u8)>, &'static [Case]);

const GROUPS: &[Group] = &[
    (
        "the example with fuel 1,000,000: spent 8",
        None,
        &[(200, 1_000_000, (5, 8, None, 0))],
    ),
    (
        "the example with fuel 8, which it costs, and with less: stopped before the last record, and so on to the first",
        None,
        &[
            (200, 8, (5, 8, None, 0)),
            (200, 7, (4, 7, Some(1), 0)),
            (200, 6, (3, 6, Some(1), 1)),
            (200, 5, (2, 5, Some(1), 2)),
            (200, 4, (1, 3, Some(2), 1)),
            (200, 3, (1, 3, Some(2), 1)),
            (200, 2, (0, 0, Some(3), 0)),
            (200, 0, (0, 0, Some(3), 0)),
        ],
    ),
    (
        "an empty trace, with fuel and without; the first two records, and the first three, at their cost",
        None,
        &[
            (0, 100, (0, 0, None, 0)),
            (0, 0, (0, 0, None, 0)),
            (80, 5, (2, 5, None, 2)),
            (120, 6, (3, 6, None, 1)),
        ],
    ),
    (
        "a tail of 1 to 39 bytes is a record: it costs 1 and needs that 1",
        None,
        &[
            (81, 100, (3, 6, None, 2)),
            (81, 6, (3, 6, None, 2)),
            (81, 5, (2, 5, Some(1), 2)),
            (119, 6, (3, 6, None, 2)),
            (119, 5, (2, 5, Some(1), 2)),
            (39, 1, (1, 1, None, 0)),
            (1, 0, (0, 0, Some(1), 0)),
        ],
    ),
    (
        "the third record has kind 0: it costs 1 and pops nothing, also where the fuel ends at it and just behind it",
        Some((80, 0)),
        &[
            (120, 100, (3, 6, None, 2)),
            (200, 100, (5, 8, None, 0)),
            (200, 5, (2, 5, Some(1), 2)),
            (200, 6, (3, 6, Some(1), 2)),
        ],
    ),
    ("the third record has kind 10: it pops nothing", Some((80, 10)), BAD_THIRD),
    ("the third record has flags 3: it pops nothing", Some((81, 3)), BAD_THIRD),
    ("the third record has flags 0: it pops nothing", Some((81, 0)), BAD_THIRD),
    ("the third record has a head: it pops nothing", Some((82, 1)), BAD_THIRD),
    ("a spare byte of the third record is 1: it pops nothing", Some((95, 1)), BAD_THIRD),
    (
        "the second push has flags 1, and so a word without its flag: it pushes nothing",
        Some((41, 1)),
        BAD_SECOND,
    ),
    (
        "the second push has flags 2, and so a word without its flag: it pushes nothing",
        Some((41, 2)),
        BAD_SECOND,
    ),
    (
        "the first push has kind 0: all that follow are refused",
        Some((0, 0)),
        &[(200, 100, (5, 5, None, 0))],
    ),
];

const BAD_THIRD: &[Case] = &[(120, 100, (3, 6, None, 2)), (200, 100, (5, 8, None, 0))];
const BAD_SECOND: &[Case] = &[(80, 100, (2, 4, None, 1)), (200, 100, (5, 7, None, 0))];

pub fn make(maker: &mut Maker) -> Made<()> {
    maker.says("the example's five records");
    lay(maker, &EXAMPLE);
    for (words, change, cases) in GROUPS {
        maker.says(words);
        change.iter().for_each(|(place, byte)| maker.byte(*place, *byte));
        for (length, fuel, wanted) in *cases {
            opened(maker, [96, 3, 12, 10])?;
            replayed(maker, *length, *fuel, *wanted)?;
        }
        lay_again(maker, *change);
    }
    walked(maker)
}

fn lay_again(maker: &mut Maker, change: Option<(usize, u8)>) {
    let changed = change.map(|(place, _)| place / 40);
    changed
        .iter()
        .for_each(|record| maker.lay(*record, &super::record(EXAMPLE[*record])));
}

fn replayed(maker: &mut Maker, length: usize, fuel: u64, wanted: End) -> Made<()> {
    let Replay {
        number, spent, stopped, ..
    } = maker.replay(fuelled(fuel), 0..length, 1)?;
    let frames = maker.state().count;
    expect(format!("{length} bytes, fuel {fuel}"), (number, spent, stopped, frames), wanted)
}

/// As many records as there are 40 bytes begun.
fn walked(maker: &mut Maker) -> Made<()> {
    maker.says(
        "the example with records 1 and 3 bad, its first bytes: a record for each 40 bytes that are begun; all but the first push cost 1",
    );
    maker.byte(55, 1);
    maker.byte(120, 0);
    for length in [200_usize, 199, 161, 160, 159, 80, 79, 41, 40, 39, 1, 0] {
        opened(maker, [32, 1, 4, 4])?;
        let number = length.div_ceil(40) as u64;
        let spent = if length < 40 { number } else { number + 2 };
        let frames = u64::from((40..120).contains(&length));
        replayed(maker, length, 100, (number, spent, None, frames))?;
    }
    Ok(())
}
