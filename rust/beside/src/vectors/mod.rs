//! The fixed vectors: text files that are made again and come out the same.
//!
//! What is expected of an accepted request is the Rust's, of a refusal document 01's as the driver of the Rust reads it; where the Rust
//! cannot follow, it is the plain reading's. The archive answers every line too.

#[cfg(target_arch = "x86_64")]
mod archive;
mod bad_records;
mod buffers;
mod call;
mod desk;
mod folder;
mod groups;
mod ledger;
mod line;
mod lists;
mod maker;
mod moves;
mod nine;
mod openings;
mod reasons;
mod search;
mod small;
mod straight;
mod text;
mod verdict;
mod walker;
mod walks;

use self::maker::{Made, Maker};
use self::text::{Book, File, said};
use self::verdict::{excused, shown};
use crate::command::Verdict;
use std::collections::BTreeMap;

pub fn run(args: &[String]) -> Verdict {
    let [name] = args else {
        return Err("the one argument is the folder to write".to_string());
    };
    let (maker, files, mutations) = match made() {
        Ok(made) => made,
        Err(why) => {
            println!("no vectors: {why}");
            return Ok(false);
        }
    };
    folder::write(name, &files)?;
    print!("{}{}{}", counts(&maker.book), excused(&maker.ledger), said(&files));
    println!("{mutations} mutations of the refusal lists, {mutations} killed");
    if !cfg!(target_arch = "x86_64") {
        println!("not compared with ours, whose archive is for x86-64");
    }
    Ok(true)
}

/// All lines, the files that they stand in, and how many mutations they show.
fn made() -> Made<(Maker, Vec<File>, usize)> {
    let mut maker = Maker::new();
    groups::make(&mut maker)?;
    openings::make(&mut maker)?;
    walks::make(&mut maker)?;
    search::make(&mut maker)?;
    bad_records::make(&mut maker)?;
    let mutations = shown(&maker.ledger)?;
    let files = maker.book.files()?;
    Ok((maker, files, mutations))
}

/// How many entries there are of each word, and of each answer number.
fn counts(book: &Book) -> String {
    let (mut words, mut answers) = (BTreeMap::new(), BTreeMap::new());
    for row in book.rows() {
        *words.entry(row.word).or_insert(0) += 1;
        if let Some(number) = row.number() {
            *answers.entry(number).or_insert(0) += 1;
        }
    }
    let words: Vec<String> = words.iter().map(|(word, count): (_, &u64)| format!("{count} {word}")).collect();
    let answers: Vec<String> = answers
        .iter()
        .map(|(number, count): (_, &u64)| format!("{number}: {count}"))
        .collect();
    format!("{}\nanswers {}\n", words.join(", "), answers.join(", "))
}
