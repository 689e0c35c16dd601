//! `beside gate`: what the merge gate runs, always the same. Its last line says how much was compared.

use super::Verdict;
use super::said::{ready, said};
use crate::drive::{self, Failure, Tally};
use crate::shrink::told;
use crate::{leaves, mission};

const SEED: u64 = 8;
/// So many requests in random traces; broken states and trace bytes get their share of it. This sets how long the gate takes.
const COUNT: u64 = 1_000_000;
const LENGTH: usize = 3;
/// So many different ends in one small world, and its histories are not made longer.
const ENDS: usize = 100_000;

pub fn run(args: &[String]) -> Verdict {
    ready(args)?;
    said(compared)
}

/// The mission goes first, so that the peak of memory is its own.
fn compared() -> Result<String, String> {
    let (requests, peak) = mission::compared()?;
    println!("mission: {requests} requests, peak {peak} MiB");
    let leaves = leaves::compared()?;
    let requests = requests_compared().map_err(told)?;
    Ok(format!("{requests}; leaves {leaves}; mission sizes within {peak} MiB"))
}

fn requests_compared() -> Result<String, Failure> {
    let random = share("random traces", &[drive::random(SEED, COUNT)?]);
    let (histories, worlds) = drive::histories(LENGTH, ENDS)?;
    let histories = share("all histories", &[histories]);
    let broken = share("broken states", &[drive::broken(SEED, COUNT / 4)?, drive::limits()?]);
    let traces = share("trace bytes", &[drive::traces(SEED, COUNT / 8)?]);
    let total = random + histories + broken + traces;
    let parts = format!("{random} random, {histories} in all histories ({worlds}), {broken} on broken states, {traces} on trace bytes");
    Ok(format!("compared {total} requests: {parts}"))
}

/// How many requests a share had; it is said at once, so that a long run shows where it is.
fn share(name: &str, tallies: &[Tally]) -> u64 {
    let total = tallies.iter().map(Tally::total).sum();
    println!("{name}: {total} requests");
    total
}
