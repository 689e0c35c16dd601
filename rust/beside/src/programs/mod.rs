//! What the three programs beside the vectors have to print, worked out by the plain reading and held to their files `stdout`.

mod listing;
mod parts;
mod reader;

use std::fs;

/// A file of a program's crate.
fn file(program: &str, name: &str) -> Vec<u8> {
    let path = format!("{}/../../crates/{program}/{name}", env!("CARGO_MANIFEST_DIR"));
    fs::read(&path).unwrap_or_else(|error| panic!("{path}: {error}"))
}

fn stdout(program: &str) -> String {
    String::from_utf8(file(program, "stdout")).expect("text")
}

/// Numbers with a blank between them, as a line.
fn row(numbers: &[u64]) -> String {
    let numbers: Vec<String> = numbers.iter().map(u64::to_string).collect();
    numbers.join(" ") + "\n"
}
