//! How many of which request got which answer.

use crate::case::{Step, Task};
use crate::plain::KINDS;
use std::fmt;

/// The nine kinds, register sync, the host part, the three tasks on trace bytes, and openings.
const WHAT: usize = 15;
/// Document 01's numbers, 0 to 15.
const NUMBERS: usize = 16;

#[derive(Default)]
pub struct Tally {
    counts: [[u64; NUMBERS]; WHAT],
}

impl Tally {
    pub fn step(&mut self, step: &Step, number: u64) {
        let what = match step {
            Step::Ask(q) => q.kind as usize - 1,
            Step::Registers(_) => 9,
            Step::Part { .. } => 10,
            Step::Trace(Task::Read(_), _) => 11,
            Step::Trace(Task::Write(..), _) => 12,
            Step::Trace(Task::Replay(_), _) => 13,
        };
        self.counts[what][number as usize] += 1;
    }

    pub fn opening(&mut self, opened: bool) {
        self.counts[14][if opened { 0 } else { 14 }] += 1;
    }

    /// How many steps and openings there were.
    pub fn total(&self) -> u64 {
        self.counts.iter().flatten().sum()
    }

    pub fn add(&mut self, other: &Tally) {
        let all = self.counts.iter_mut().flatten().zip(other.counts.iter().flatten());
        all.for_each(|(mine, others)| *mine += others);
    }
}

impl fmt::Display for Tally {
    /// A line for each request: how often it got which answer.
    fn fmt(&self, f: &mut fmt::Formatter<'_>) -> fmt::Result {
        let names = KINDS.iter().chain(&["registers", "host part", "read", "write", "replay", "open"]);
        for (name, counts) in names.zip(&self.counts) {
            let seen = counts.iter().enumerate().filter(|(_, count)| **count > 0);
            let answers: Vec<String> = seen.map(|(number, count)| format!("{number}: {count}")).collect();
            writeln!(f, "{name:12} {}", answers.join(", "))?;
        }
        Ok(())
    }
}
