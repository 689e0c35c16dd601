//! Instructions, as valgrind's callgrind counts them: it runs this program again, on fewer records.

mod request;
mod runs;

pub use self::runs::run_all;

use super::scratch::Scratch;
use std::collections::HashMap;
use std::process::{Command, Stdio};
use std::{env, fs};

/// Of each trace so many records, from its beginning on.
pub const RECORDS: usize = 10_000;

/// What callgrind writes before the name of a dump, and before its total.
const NAME: &str = "desc: Trigger: Client Request: ";
const TOTAL: &str = "totals: ";

/// Instructions by the name of a run.
pub struct Counts(HashMap<String, u64>);

impl Counts {
    /// Has them counted; an error says why there are none.
    pub fn take() -> Result<Self, String> {
        let dumps = Scratch::new("callgrind")?;
        let program = env::current_exe().map_err(|error| error.to_string())?;
        let status = Command::new("valgrind")
            .args(["--tool=callgrind", "--combine-dumps=yes"])
            .arg(format!("--callgrind-out-file={}", dumps.path().display()))
            .arg(program)
            .args(["bench", "--count", &RECORDS.to_string()])
            .stdout(Stdio::null())
            .stderr(Stdio::null())
            .status()
            .map_err(|_| "valgrind is not here".to_string())?;
        if !status.success() {
            return Err(format!("valgrind: {status}"));
        }
        let text = fs::read_to_string(dumps.path()).map_err(|error| error.to_string())?;
        Ok(Self(read(&text)))
    }

    /// Instructions a record.
    pub fn of(&self, trace: &str, way: &str, party: &str) -> Option<u64> {
        let total = self.0.get(&run_name(trace, way, party))?;
        Some(total / RECORDS as u64)
    }
}

/// The dumps of one file.
fn read(text: &str) -> HashMap<String, u64> {
    let (mut counts, mut name) = (HashMap::new(), None);
    for line in text.lines() {
        name = line.strip_prefix(NAME).or(name);
        let total = line.strip_prefix(TOTAL).and_then(|total| total.parse().ok());
        if let (Some(name), Some(total)) = (name, total) {
            counts.entry(name.to_string()).or_insert(total);
        }
    }
    counts
}

fn run_name(trace: &str, way: &str, party: &str) -> String {
    format!("{trace}, {way}, {party}")
}

#[cfg(test)]
mod tests {
    use super::read;

    #[test]
    fn totals_by_name() {
        let text = "version: 1\npart: 1\ndesc: Trigger: Client Request: a, b\nsummary: 7\nfn=(1)\n1 7\ntotals: 7\n\
            part: 2\ndesc: Trigger: Client Request: c\ntotals: 12\npart: 3\ndesc: Trigger: Program termination\ntotals: 99\n";
        let counts = read(text);
        assert_eq!((counts.len(), counts.get("a, b"), counts.get("c")), (2, Some(&7), Some(&12)));
    }
}
