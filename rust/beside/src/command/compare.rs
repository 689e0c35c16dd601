//! `beside compare`: random traces, all short histories, broken states, trace bytes; the last line says how much was compared.

use super::Verdict;
use crate::args::Options;
use crate::drive::{self, Failure, Tally};
use crate::shrink::told;
use std::time::Instant;

const SEED: u64 = 1;
const COUNT: u64 = 10_000_000;
const LENGTH: u64 = 4;
/// So many different ends in one small world, and its histories are not made longer.
const ENDS: usize = 100_000;

pub fn run(args: &[String]) -> Verdict {
    let options = Options::read(args, &["seed", "count", "exhaustive"])?;
    let (seed, count) = (options.number("seed", SEED), options.number("count", COUNT));
    let length = options.number("exhaustive", LENGTH) as usize;
    if !oracle::DEBUG_ASSERTIONS {
        return Err("this build has no debug assertions, which the Rust is compared with: build it with --profile beside".to_string());
    }
    let outcome = compare(seed, count, length);
    let well = outcome.is_ok();
    outcome.map_or_else(report, |line| println!("{line}"));
    Ok(well)
}

/// All drivers one after another; the line that sums them up.
fn compare(seed: u64, count: u64, length: usize) -> Result<String, Failure> {
    let said = format!("seed {seed}");
    let random = timed("random traces", || Ok((drive::random(seed, count)?, said.clone())))?;
    let histories = timed("all histories", || drive::histories(length, ENDS))?;
    let broken = timed("broken states", || Ok((drive::broken(seed, count / 4)?, said.clone())))?;
    let limits = timed("limits", || Ok((drive::limits()?, "fixed".to_string())))?;
    let traces = timed("trace bytes", || Ok((drive::traces(seed, count / 8)?, said.clone())))?;
    let mut all = Tally::default();
    [&random, &histories, &broken, &limits, &traces]
        .into_iter()
        .for_each(|tally| all.add(tally));
    print!("{all}");
    let [total, random, histories, traces] = [&all, &random, &histories, &traces].map(Tally::total);
    let broken = broken.total() + limits.total();
    let parts = format!("{random} in random traces, {histories} in all histories, {broken} on broken states, {traces} on trace bytes");
    let line = format!("compared {total} requests: {parts}");
    Ok(if cfg!(target_arch = "x86_64") {
        line
    } else {
        line + "; all without ours, whose archive is for x86-64"
    })
}

/// Runs a driver and says what it did and how fast.
fn timed(name: &str, run: impl FnOnce() -> Result<(Tally, String), Failure>) -> Result<Tally, Failure> {
    let begin = Instant::now();
    let (tally, said) = run()?;
    let seconds = begin.elapsed().as_secs_f64();
    println!(
        "{name}: {} requests in {seconds:.1} s, {:.0} a second ({said})",
        tally.total(),
        tally.total() as f64 / seconds
    );
    Ok(tally)
}

fn report(failure: Failure) {
    println!("different: {}", failure.why);
    println!("shrunk to: {}", told(failure));
}
