//! `beside bench`: ours over the archive beside the Rust and beside C by hand, on the same traces, in one run.
//!
//! The ways of a host are measured: a call for each request, decoded beforehand; whole traces, decoded in the loop; and the same traces in
//! blocks, beside the whole.

mod blocks;
mod by_value;
mod callgrind;
mod clock;
#[cfg(floor)]
mod floor;
mod in_place;
mod lent;
mod line;
mod program;
mod replayed;
mod rounds;
mod rust;
mod scratch;
mod side;
mod trace;
mod ways;

use self::callgrind::Counts;
use self::line::{Measured, lines};
use self::rounds::times;
use self::trace::{SORTS, Sort, filling};
use self::ways::{Party, Way};
use crate::args::Options;
use crate::command::Verdict;
use std::time::Duration;

const RECORDS: u64 = 1_000_000;
const ROUNDS: u64 = 7;

/// The largest stack there is.
const DEPTH: usize = 65_536;
const CELLS: usize = 1_048_576;
const BYTES: usize = 8 * CELLS;

pub fn run(args: &[String]) -> Verdict {
    let options = Options::read(args, &["records", "rounds", "count"])?;
    let (records, rounds) = (options.number("records", RECORDS), options.number("rounds", ROUNDS));
    if records == 0 || rounds == 0 {
        return Err("one record and one round at least".to_string());
    }
    if oracle::DEBUG_ASSERTIONS {
        return Err("this build has debug assertions, which the Rust is not timed with: build it with --release".to_string());
    }
    let outcome = match options.number("count", 0) {
        0 => Bench::new(records as usize, rounds).run(),
        count => callgrind::run_all(count as usize),
    };
    if let Err(why) = &outcome {
        println!("different: {why}");
    }
    Ok(outcome.is_ok())
}

struct Bench {
    records: usize,
    rounds: u64,
    /// Or why there are none.
    counts: Result<Counts, String>,
}

impl Bench {
    fn new(records: usize, rounds: u64) -> Self {
        Self {
            records,
            rounds,
            counts: Counts::take(),
        }
    }

    /// Prints a line as soon as it is measured.
    fn run(&self) -> Result<(), String> {
        println!("{}", self.head());
        for way in &mut ways::all()? {
            filled(way)?;
            let mut lines = SORTS.iter().map(|sort| self.lines(way, sort));
            lines.try_for_each(|lines| lines.map(|lines| println!("{}", lines.join("\n"))))?;
        }
        println!("{}", program::line()?);
        Ok(())
    }

    fn head(&self) -> String {
        let Self { records, rounds, .. } = self;
        let counted = match &self.counts {
            Ok(_) => format!("callgrind's, a record, of the first {} of each trace", callgrind::RECORDS),
            Err(why) => format!("not counted, {why}"),
        };
        format!(
            "{records} records a trace, medians of {rounds} rounds; release build, the Rust without its debug assertions
before timing every page of all buffers was written; in a round each party has its turn after a reset, in every other one backwards
ns: the thread's processor time, a record
instructions: {counted}
ratio: by round, to the Rust, inlined, on the same trace in the same way, and in blocks to all at once
of C: to C by hand, which has the same shapes"
        )
    }

    /// Every party on one trace.
    fn lines(&self, way: &mut Way, sort: &Sort) -> Result<Vec<String>, String> {
        let trace = sort.trace(self.records);
        let loaded = way.parties.iter_mut().try_for_each(|party| party.side.load(&trace));
        let times = loaded.and_then(|()| times(&mut way.parties, &trace, self.rounds));
        let times = times.map_err(|why| format!("{}, {}: {why}", sort.name, way.name))?;
        let a_record = |time: &Duration| time.as_nanos() as f64 / self.records as f64;
        let measured = |(party, times): (&Party, Vec<Duration>)| Measured {
            party: party.name,
            role: party.role,
            nanoseconds: times.iter().map(a_record).collect(),
            instructions: self
                .counts
                .as_ref()
                .ok()
                .and_then(|counts| counts.of(sort.name, way.name, party.name)),
        };
        let all: Vec<Measured> = way.parties.iter().zip(times).map(measured).collect();
        Ok(lines(sort.name, way.name, &all))
    }
}

/// All frames and cells used once by each party, the Rust last: so their pages are there, and the Rust need not grow any more.
fn filled(way: &mut Way) -> Result<(), String> {
    let trace = filling(DEPTH, CELLS);
    for party in way.parties.iter_mut().rev() {
        party.side.load(&trace)?;
        let end = party.side.run(&trace)?;
        if (end.count, end.len) != (DEPTH, CELLS) {
            return Err(format!("{}, filled, ends with {end:?}", party.name));
        }
    }
    Ok(())
}
