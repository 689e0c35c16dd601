//! What callgrind runs and counts.

use super::{request, run_name};
use crate::bench::trace::{SORTS, Trace};
use crate::bench::ways::{self, Party, Way};
use std::ffi::CString;

/// Every party on the beginning of each trace; ours before the Rust, which has no answer to what is refused.
pub fn run_all(records: usize) -> Result<(), String> {
    let traces = SORTS.map(|sort| (sort.name, sort.trace(records)));
    ways::all()?.iter_mut().try_for_each(|way| run_way(way, &traces))
}

fn run_way(way: &mut Way, traces: &[(&str, Trace)]) -> Result<(), String> {
    for (name, trace) in traces {
        let mut parties = way.parties.iter_mut().rev();
        parties.try_for_each(|party| run_party(party, trace, &run_name(name, way.name, party.name)))?;
    }
    Ok(())
}

/// Twice, and the second run is counted: in the first one the Rust's buffers grow.
fn run_party(party: &mut Party, trace: &Trace, name: &str) -> Result<(), String> {
    let name = CString::new(name).map_err(|error| error.to_string())?;
    let side = &mut party.side;
    side.load(trace)?;
    side.reset();
    side.run(trace)?;
    side.reset();
    request::zero_counts();
    side.run(trace)?;
    request::dump_counts(&name);
    Ok(())
}
