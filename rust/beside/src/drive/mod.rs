//! What drives the comparison: random traces, all short histories of small worlds, broken states, trace bytes.

mod alphabet;
mod broken;
mod counts;
mod histories;
mod limits;
mod openings;
mod random;
mod steps;
mod tally;
mod traces;

pub use self::{broken::broken, histories::histories, limits::limits, random::random, tally::Tally, traces::traces};

#[cfg(target_arch = "x86_64")]
pub use self::broken::spoil;

/// What the cases are made from, for the tests of C by hand, which is no party.
#[cfg(all(test, floor))]
pub mod made {
    pub use super::broken::{sound, spoil};
    pub use super::steps::{MOODS, request};
    pub use super::traces::{start_of_run, trace};
}

use crate::case::{Case, Start, Step};
use crate::party::Table;

/// A case in which the parties differ.
#[derive(Debug)]
pub struct Failure {
    pub case: Box<Case>,
    pub why: String,
}

impl Failure {
    pub fn new(start: &Start, steps: &[Step], why: String) -> Self {
        let case = Box::new(Case {
            start: start.clone(),
            steps: steps.to_vec(),
        });
        Self { case, why }
    }
}

/// Sets a table for a start; nothing where all refuse it.
fn table(start: &Start) -> Result<Option<Table>, Failure> {
    Table::new(start).map_err(|why| Failure::new(start, &[], why))
}

/// Runs a case as it stands.
fn run(case: &Case, tally: &mut Tally) -> Result<(), Failure> {
    let Some(mut table) = table(&case.start)? else {
        return Ok(());
    };
    for (i, step) in case.steps.iter().enumerate() {
        let answer = table.take(step).map_err(|why| Failure::new(&case.start, &case.steps[..=i], why))?;
        tally.step(step, answer.number);
    }
    Ok(())
}
