//! A file as it is written, and what the program prints where nothing differs.

use super::book::Block;

/// Every file is shorter.
pub const MOST_BYTES: usize = 60_000;

pub struct File {
    pub name: String,
    pub text: String,
    lines: usize,
    entries: usize,
    compared: usize,
}

impl File {
    /// A comment, then the blocks.
    pub fn of(name: &str, about: &str, blocks: &[&Block]) -> Self {
        let head = format!("# {about}\n");
        let text = blocks.iter().fold(head, |text, block| text + &block.text());
        let rows = || blocks.iter().flat_map(|block| &block.rows);
        Self {
            name: format!("{name}.txt"),
            lines: text.lines().count(),
            entries: rows().count(),
            compared: rows().map(|row| row.compared()).sum(),
            text,
        }
    }
}

/// A line for each file, and one for all.
pub fn said(files: &[File]) -> String {
    let line = |file: &File| {
        let File {
            name,
            lines,
            entries,
            compared,
            ..
        } = file;
        format!("{name}: {lines} lines, {entries} entries, {compared} numbers compared, 0 differ, 0 bad lines\n")
    };
    let each: String = files.iter().map(line).collect();
    let entries: usize = files.iter().map(|file| file.entries).sum();
    let compared: usize = files.iter().map(|file| file.compared).sum();
    let count = files.len();
    format!("{each}all: {count} files, {entries} entries, {compared} numbers compared, 0 differ, 0 bad lines\n")
}
