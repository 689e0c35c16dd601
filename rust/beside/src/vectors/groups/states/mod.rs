//! states: sync, restore, set, reset and register sync; and every cause of 9.

mod eleven;
mod rows;
mod simple;
mod sizes;
mod wide;

use crate::vectors::maker::{Made, Maker};

pub fn make(maker: &mut Maker) -> Made<()> {
    maker.file(
        "states",
        "Sync, restore, set, reset and register sync. Every cause of 9 in a state's sizes, with all eleven requests.",
    );
    simple::make(maker)?;
    sizes::make(maker)?;
    maker.file(
        "states-2",
        "Every cause of 9 in the rows of frames, and the widest stacks, with all eleven requests.",
    );
    rows::make(maker)?;
    wide::make(maker)
}
