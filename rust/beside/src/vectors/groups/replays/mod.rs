//! replays: what each record costs, fuel, stops, whole traces and traces in parts.

mod costs;
mod fuel;
mod given;
mod million;
mod odd;
mod parts;
pub(super) mod records;
mod rows;
mod traces;

use super::bytes::{Fields, record};
use super::claims::opened;
use crate::plain::{Regs, Replay};
use crate::reading::RECORD_BYTES;
use crate::vectors::maker::{Made, Maker};
use std::ops::Range;

pub fn make(maker: &mut Maker) -> Made<()> {
    maker.file(
        "replays",
        "Replays: what each record costs, fuel at the exact cost and one short of it, after a stop, and runs that no replay makes, with any flags.",
    );
    costs::make(maker)?;
    fuel::make(maker)?;
    given::make(maker)?;
    odd::make(maker)?;
    maker.file(
        "replays-2",
        "Replays: records with a number that their kind has not, whole traces and their first bytes, traces in parts, and a million records.",
    );
    rows::make(maker)?;
    traces::make(maker)?;
    parts::make(maker)?;
    million::make(maker)
}

/// A run that has so much fuel and nothing spent.
pub(super) fn fuelled(fuel: u64) -> Replay {
    Replay { fuel, ..Replay::default() }
}

/// Depth 3, M 12, L 10. The registers are set, so that a run that loses them is seen.
fn stand(maker: &mut Maker) -> Made<()> {
    opened(maker, [96, 3, 12, 10])?;
    let regs = Regs {
        ireg: 5,
        freg32: 0x3fc0_0000,
        freg64: 0x4004_0000_0000_0000,
    };
    maker.registers(regs).map(|_| ())
}

/// Records from the trace's beginning on.
pub(super) fn lay(maker: &mut Maker, fields: &[Fields]) {
    (0..).zip(fields).for_each(|(index, fields)| maker.lay(index, &record(*fields)));
}

/// The bytes of so many records from one on.
fn bytes(from: usize, records: usize) -> Range<usize> {
    from * RECORD_BYTES..(from + records) * RECORD_BYTES
}
