//! The groups of lines that are written by hand: a text file for each part of document 01, and in it a comment over each group.

mod bytes;
mod calls;
mod claims;
mod copies;
mod edges;
mod hosts;
mod kinds;
mod leaves;
mod records;
mod registers;
mod replays;
mod requests;
mod returns;
mod scene;
mod states;
mod tails;
mod tapes;

use super::maker::{Made, Maker};

/// All files, in their order.
pub fn make(maker: &mut Maker) -> Made<()> {
    edges::make(maker)?;
    calls::make(maker)?;
    hosts::make(maker)?;
    states::make(maker)?;
    registers::make(maker)?;
    returns::make(maker)?;
    tails::make(maker)?;
    records::make(maker)?;
    requests::make(maker)?;
    replays::make(maker)?;
    tapes::make(maker)?;
    leaves::make(maker)
}
