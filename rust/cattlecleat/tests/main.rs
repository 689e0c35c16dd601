//! The safe API against document 01: its example and edge cases, refusals, broken states, NaNs, records, traces in blocks and the leaves.
mod broken;
mod cases;
mod example;
mod hosts;
mod layout;
mod leaves;
mod nans;
mod readme;
mod records;
mod shared;
mod tape;
mod unchanged;
mod world;
