//! The most memory that a program has had so far, as the system counts it.

use std::fs;

/// In KiB, of a program that runs: its number, or `self`.
pub fn kib(program: &str) -> Result<u64, String> {
    let status = fs::read_to_string(format!("/proc/{program}/status")).map_err(|error| format!("no peak of memory: {error}"))?;
    peak(&status).ok_or("no peak of memory: no VmHWM".to_string())
}

fn peak(status: &str) -> Option<u64> {
    let line = status.lines().find_map(|line| line.strip_prefix("VmHWM:"))?;
    line.trim().strip_suffix(" kB")?.parse().ok()
}

#[cfg(test)]
mod tests {
    use super::peak;

    #[test]
    fn the_peak_is_found() {
        assert_eq!(
            peak("Name:\tx\nVmPeak:\t  900 kB\nVmHWM:\t     2049 kB\nVmRSS:\t 5 kB\n"),
            Some(2049)
        );
        assert_eq!(peak("Name:\tx\n"), None);
    }
}
