//! The files as they grow: blocks of rows, each with a comment above it and its own columns.
//!
//! A series is one sheet that becomes several files, since none may be too long: it is parted where something begins anew.

use super::columns::lines;
use super::file::{File, MOST_BYTES};
use super::row::Row;
use std::collections::BTreeSet;

#[derive(Default)]
pub struct Block {
    says: Option<String>,
    pub rows: Vec<Row>,
}

impl Block {
    pub fn text(&self) -> String {
        let says = self.says.as_ref().map(|says| format!("\n# {says}\n")).unwrap_or_default();
        lines(&self.rows).iter().fold(says, |text, line| text + line + "\n")
    }
}

struct Sheet {
    name: String,
    about: String,
    series: bool,
    /// What cannot be parted.
    units: Vec<Vec<Block>>,
}

#[derive(Default)]
pub struct Book {
    sheets: Vec<Sheet>,
    faults: Vec<String>,
}

impl Book {
    /// A file begins.
    pub fn file(&mut self, name: &str, about: &str) {
        self.sheet(name, about, false);
    }

    /// A series begins, told by sums.
    pub fn series(&mut self, name: &str, about: &str) {
        self.sheet(name, about, true);
    }

    fn sheet(&mut self, name: &str, about: &str, series: bool) {
        self.sheets.push(Sheet {
            name: name.to_string(),
            about: about.to_string(),
            series,
            units: vec![Vec::new()],
        });
    }

    /// A block begins, below a comment.
    pub fn says(&mut self, words: &str) {
        self.block(Some(words.to_string()));
    }

    /// A block begins at which a file of a series may begin.
    pub fn anew(&mut self, words: &str) {
        if let Some(sheet) = self.sheets.last_mut() {
            sheet.units.push(Vec::new());
        }
        self.says(words);
    }

    /// From here on both buffers are told in full, or by sums.
    pub fn mode(&mut self, sums: bool) {
        self.block(None);
        self.put(Row::of(if sums { "sums" } else { "full" }, Vec::new()));
    }

    fn block(&mut self, says: Option<String>) {
        match self.last_unit() {
            Some(unit) => unit.push(Block { says, rows: Vec::new() }),
            None => self.fault("something before the first file"),
        }
    }

    pub fn put(&mut self, row: Row) {
        if let Some(why) = row.fault() {
            self.fault(&why);
        }
        if self.last_unit().is_none_or(|unit| unit.is_empty()) {
            self.block(None);
        }
        if let Some(block) = self.last_unit().and_then(|unit| unit.last_mut()) {
            block.rows.push(row);
        }
    }

    fn last_unit(&mut self) -> Option<&mut Vec<Block>> {
        self.sheets.last_mut()?.units.last_mut()
    }

    /// Something that no file may have: it is told when the files are asked for.
    pub fn fault(&mut self, why: &str) {
        let name = self.sheets.last().map_or("", |sheet| &sheet.name);
        self.faults.push(format!("{name}: {why}"));
    }

    pub fn rows(&self) -> impl Iterator<Item = &Row> {
        let units = self.sheets.iter().flat_map(|sheet| &sheet.units);
        units.flatten().flat_map(|block| &block.rows)
    }

    /// All files, or what is wrong with them.
    pub fn files(&self) -> Result<Vec<File>, String> {
        let files: Vec<File> = self.sheets.iter().flat_map(Sheet::files).collect();
        let long = files.iter().filter(|file| file.text.len() >= MOST_BYTES);
        let long = long.map(|file| format!("{} has {} bytes", file.name, file.text.len()));
        let mut names = BTreeSet::new();
        let twice = files.iter().filter(|file| !names.insert(&file.name));
        let twice = twice.map(|file| format!("{} is there twice", file.name));
        let faults: Vec<String> = self.faults.iter().cloned().chain(long).chain(twice).collect();
        if faults.is_empty() { Ok(files) } else { Err(faults.join("; ")) }
    }
}

impl Sheet {
    fn files(&self) -> Vec<File> {
        let blocks: Vec<&Block> = self.units.iter().flatten().collect();
        if !self.series {
            return vec![File::of(&self.name, &self.about, &blocks)];
        }
        let head = Block {
            rows: vec![Row::of("sums", Vec::new())],
            ..Block::default()
        };
        let numbered = |(i, mut part): (usize, Vec<&Block>)| {
            part.insert(0, &head);
            File::of(&format!("{}-{}", self.name, i + 1), &self.about, &part)
        };
        self.parts().into_iter().enumerate().map(numbered).collect()
    }

    /// As many units to a part as a file may have, beside its comment and `sums`.
    fn parts(&self) -> Vec<Vec<&Block>> {
        let head = self.about.len() + "# \nsums\n".len();
        let mut parts: Vec<Vec<&Block>> = Vec::new();
        let mut bytes = MOST_BYTES;
        for unit in self.units.iter().filter(|unit| !unit.is_empty()) {
            let more: usize = unit.iter().map(|block| block.text().len()).sum();
            if bytes + more >= MOST_BYTES {
                parts.push(Vec::new());
                bytes = head;
            }
            bytes += more;
            parts.last_mut().expect("a part").extend(unit);
        }
        parts
    }
}

#[cfg(test)]
mod tests {
    use super::Book;
    use crate::vectors::text::{Row, Token, numbers, said};

    fn pop(answer: u64) -> Row {
        Row {
            word: "pop",
            given: vec![Token::pair([1, 2])],
            expected: vec![numbers(&[answer]), vec![Token::pair([0, 0])]],
        }
    }

    #[test]
    fn a_file_is_its_comments_and_rows() {
        let mut book = Book::default();
        book.file("small", "A small file.");
        book.put(Row::of("byte", numbers(&[0, 9])));
        book.says("two pops");
        book.put(pop(1));
        book.put(pop(14));
        book.mode(true);
        let files = book.files().expect("no fault");
        let lines = [
            "# A small file.",
            "byte    0 9",
            "",
            "# two pops",
            "pop     1:2 |  1 | -",
            "pop     1:2 | 14 | -",
            "sums",
        ];
        assert_eq!(files[0].text, lines.join("\n") + "\n");
        let counts = "4 entries, 6 numbers compared, 0 differ, 0 bad lines\n";
        assert_eq!(said(&files), format!("small.txt: 7 lines, {counts}all: 1 files, {counts}"));
    }

    #[test]
    fn a_series_is_parted_where_something_begins_anew() {
        let mut book = Book::default();
        book.series("long", "A long one.");
        for unit in 0..3 {
            book.anew(&format!("unit {unit}"));
            (0..1000).for_each(|_| book.put(pop(1)));
        }
        let files = book.files().expect("no fault");
        let heads: Vec<&str> = files
            .iter()
            .map(|file| &file.text[..file.text.find("\npop").unwrap_or(0)])
            .collect();
        assert_eq!(heads, ["# A long one.\nsums\n\n# unit 0", "# A long one.\nsums\n\n# unit 2"]);
        assert_eq!((files[0].name.as_str(), files[1].name.as_str()), ("long-1.txt", "long-2.txt"));
    }

    #[test]
    fn what_no_file_may_have_is_told_at_the_end() {
        let faulty = |begin: fn(&mut Book), rows: usize| {
            let mut book = Book::default();
            begin(&mut book);
            (0..rows).for_each(|_| book.put(pop(1)));
            book.files().err()
        };
        assert_eq!(faulty(|book| book.file("a", ""), 1), None);
        assert_eq!(faulty(|_| (), 1), Some(": something before the first file".to_string()));
        let twice = |book: &mut Book| ["a", "a"].iter().for_each(|name| book.file(name, ""));
        assert_eq!(faulty(twice, 1), Some("a.txt is there twice".to_string()));
        assert_eq!(faulty(|book| book.file("a", ""), 3000), Some("a.txt has 60003 bytes".to_string()));
    }
}
