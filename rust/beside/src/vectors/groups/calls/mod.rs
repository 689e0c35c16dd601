//! calls: push, replace and pop; what frames owe, and what becomes of the cells.

mod cells;
mod debts;
mod pops;
mod pushes;
mod replaces;

use crate::vectors::maker::{Made, Maker};

pub fn make(maker: &mut Maker) -> Made<()> {
    maker.file(
        "calls",
        "Push, replace and pop: every refusal by its smallest request, both sides of each bound, and the order of the refusals.",
    );
    pushes::make(maker)?;
    replaces::make(maker)?;
    pops::make(maker)?;
    maker.file(
        "calls-2",
        "Push, replace and pop: what frames owe, and which cells are zeroed and copied.",
    );
    debts::make(maker)?;
    cells::make(maker)
}
