//! What subcommands that only compare have in common: no arguments, one line at the end, and a difference told before it.

use super::Verdict;
use std::panic::{self, UnwindSafe};

/// No arguments are given, and this build has the Rust's debug assertions and overflow checks, without which it has other ends.
pub fn ready(args: &[String]) -> Result<(), String> {
    if !args.is_empty() {
        return Err("it takes no arguments".to_string());
    }
    if !oracle::DEBUG_ASSERTIONS {
        return Err("this build has no debug assertions, which the Rust is compared with: build it with --profile beside".to_string());
    }
    Ok(())
}

/// Runs a comparison and prints its line, or the first difference. A debug assertion of the Rust that fails is one like any other.
pub fn said(compared: impl FnOnce() -> Result<String, String> + UnwindSafe) -> Verdict {
    let outcome = panic::catch_unwind(compared).unwrap_or(Err("a panic".to_string()));
    let well = outcome.is_ok();
    println!("{}", outcome.unwrap_or_else(|why| format!("different: {why}")));
    Ok(well)
}
