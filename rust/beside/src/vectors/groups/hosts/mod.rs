//! hosts: host, return-host and the host part.

mod cells;
mod growth;
mod hosting;
mod parts;
mod returning;

use crate::vectors::maker::{Made, Maker};

pub fn make(maker: &mut Maker) -> Made<()> {
    maker.file(
        "hosts",
        "Host and return-host: every refusal by its smallest request, both sides of each bound, and the order of the refusals.",
    );
    hosting::make(maker)?;
    returning::make(maker)?;
    maker.file("hosts-2", "The host part, growth, and which cells return-host copies.");
    parts::make(maker)?;
    growth::make(maker)?;
    cells::make(maker)
}
