//! records: trace records read and written.

mod changed;
mod flags;
pub mod good;
mod room;
pub mod spelled;

use crate::vectors::maker::{Made, Maker};

pub fn make(maker: &mut Maker) -> Made<()> {
    maker.file(
        "records",
        "Trace records written and read: one of each kind, each with its flags changed, and both sides of each length and place.",
    );
    spelled::make(maker)?;
    flags::make(maker)?;
    room::make(maker)?;
    maker.file("records-2", "Trace records read: good ones with one byte changed.");
    changed::make(maker)
}
