//! The program: it replays a long trace and prints its listing, beside `cat` of the same file.

use super::clock::{self, median};
use super::scratch::Scratch;
use super::trace::{LISTED, Trace};
use crate::peak;
use std::fs::{self, File};
use std::io::Write;
use std::path::Path;
use std::process::{Command, Stdio};

/// From the repository's folder, where `./cattlecleat bench` runs.
const PROGRAM: &str = "crates/cattlecleat/out/cattlecleat";
const WORD: &str = "replay";

/// As many as its fuel covers at a cost of 1 each.
const RECORDS: usize = 1_000_000;
const RUNS: usize = 7;

/// Megabytes a second of processor time, user and system, of both; and the program's peak of memory. Where it cannot be run, why.
pub fn line() -> Result<String, String> {
    if let Err(why) = Command::new(PROGRAM).arg("help").stdout(Stdio::null()).status() {
        return Ok(format!("the program: not timed, {PROGRAM}: {why}"));
    }
    let trace = LISTED.trace(RECORDS);
    let file = Scratch::new("trace")?;
    fs::write(file.path(), &trace.bytes).map_err(told)?;
    whole_listing(&trace, file.path())?;
    let kib = peak_of_memory(&trace)?;
    let [program, cat] = medians(file.path())?;
    let megabytes = trace.bytes.len() as f64 / 1e6;
    Ok(format!(
        "the program: {megabytes:.0} MB, {RECORDS} records, and its listing to /dev/null: {:.0} MB/s, {:.1} ns a record, {kib} KiB of memory; \
        cat of the same file: {:.0} MB/s",
        megabytes / program,
        program * 1e9 / RECORDS as f64,
        megabytes / cat
    ))
}

/// Every record has its line, with answer 0 or 1, and all of the cost is spent.
fn whole_listing(trace: &Trace, file: &Path) -> Result<(), String> {
    let input = File::open(file).map_err(told)?;
    let output = Command::new(PROGRAM).arg(WORD).stdin(input).output().map_err(told)?;
    let listing = String::from_utf8_lossy(&output.stdout);
    let end = format!("spent {}\n", trace.cost);
    let lines = listing
        .strip_suffix(&end)
        .ok_or(format!("the program's listing does not end with {end}"))?;
    let accepted = |line: &&str| matches!(line.split(' ').nth(1), Some("0" | "1"));
    match lines.lines().filter(accepted).count() {
        RECORDS => Ok(()),
        count => Err(format!("the program accepts {count} records of {RECORDS}")),
    }
}

/// In KiB, read when it has been given everything, and before its input ends: so it is still there.
fn peak_of_memory(trace: &Trace) -> Result<u64, String> {
    let mut child = Command::new(PROGRAM)
        .arg(WORD)
        .stdin(Stdio::piped())
        .stdout(Stdio::null())
        .spawn()
        .map_err(told)?;
    let mut input = child.stdin.take().ok_or("the program has no input")?;
    let written = input.write_all(&trace.bytes).map_err(told);
    let peak = peak::kib(&child.id().to_string());
    drop(input);
    child.wait().map_err(told)?;
    written.and(peak)
}

/// The median seconds of the program and of cat, in turns.
fn medians(file: &Path) -> Result<[f64; 2], String> {
    let mut times = [Vec::new(), Vec::new()];
    for _ in 0..RUNS {
        times[0].push(seconds(Command::new(PROGRAM).arg(WORD), file)?);
        times[1].push(seconds(&mut Command::new("cat"), file)?);
    }
    Ok(times.map(|times| median(times.into_iter())))
}

fn seconds(command: &mut Command, file: &Path) -> Result<f64, String> {
    let input = File::open(file).map_err(told)?;
    let begin = clock::of_children();
    let status = command.stdin(input).stdout(Stdio::null()).status().map_err(told)?;
    match status.success() {
        true => Ok((clock::of_children() - begin).as_secs_f64()),
        false => Err(format!("{command:?}: {status}")),
    }
}

fn told(error: std::io::Error) -> String {
    format!("the program: {error}")
}
