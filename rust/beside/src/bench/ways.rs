//! The ways of a host, and who takes part in each.

use super::blocks::Blocks;
use super::by_value::ByValue;
#[cfg(floor)]
use super::floor::{self, Floor};
use super::in_place::{InPlace, Ours};
use super::replayed::Replayed;
use super::rust;
use super::side::Side;
use crate::reading::RECORD_BYTES;
use cattlecleat::raw;

pub const BY_HAND: &str = "C by hand, every check";

pub struct Way {
    pub name: &'static str,
    /// The others are measured by the first: by the Rust, or in blocks by the whole trace.
    pub parties: Vec<Party>,
}

pub struct Party {
    pub name: &'static str,
    pub role: Role,
    pub side: Box<dyn Side>,
}

#[derive(Clone, Copy, PartialEq, Eq)]
pub enum Role {
    /// Measured by the first alone.
    Plain,
    /// In the shapes of C by hand, and measured by that too.
    LikeFloor,
    /// C by hand.
    Floor,
}

/// Every party has a stack of its own. Without a C compiler there is no C by hand.
pub fn all() -> Result<[Way; 3], String> {
    let requests = Way {
        name: "one call a request",
        parties: vec![
            party("the Rust, inlined", Role::Plain, rust::Asked::inlined()),
            party("the Rust behind a call", Role::Plain, rust::Asked::behind_a_call()),
            party("ours, by value", Role::Plain, ByValue::open()?),
            party("ours, in place", Role::LikeFloor, InPlace::<Ours>::open()?),
            #[cfg(floor)]
            party(BY_HAND, Role::Floor, InPlace::<Floor>::open()?),
        ],
    };
    let traces = Way {
        name: "in the loop",
        parties: vec![
            party("the Rust, inlined", Role::Plain, rust::Replayed::open()),
            party("ours", Role::LikeFloor, Replayed::open(raw::replay)?),
            #[cfg(floor)]
            party(BY_HAND, Role::Floor, Replayed::open(floor::replay)?),
        ],
    };
    let blocks = Way {
        name: "in blocks",
        parties: vec![
            party("ours, all at once", Role::Plain, Replayed::open(raw::replay)?),
            party("ours, 65,536 bytes", Role::Plain, Blocks::open(65_536)?),
            party("ours, 4,096 bytes", Role::Plain, Blocks::open(4_096)?),
            party("ours, 40 bytes", Role::Plain, Blocks::open(RECORD_BYTES)?),
        ],
    };
    Ok([requests, traces, blocks])
}

fn party(name: &'static str, role: Role, side: impl Side + 'static) -> Party {
    Party {
        name,
        role,
        side: Box::new(side),
    }
}
