//! requests: requests and their records there and back, traces walked, structs written as records, and requests asked straight.

mod ends;
mod lawless;
mod spelt;
mod straight;
mod walks;

use crate::vectors::maker::{Made, Maker};

pub fn make(maker: &mut Maker) -> Made<()> {
    maker.file(
        "requests",
        "Requests and their records there and back, traces walked, and records that break one rule.",
    );
    walks::make(maker)?;
    ends::make(maker)?;
    lawless::make(maker)?;
    maker.file(
        "requests-2",
        "Requests as the C face takes them: written as records, of which those that break a rule are 10, and asked straight.",
    );
    spelt::make(maker)?;
    straight::make(maker)
}
