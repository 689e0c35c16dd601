//! `beside leaves`: what stands below the stack, and the paths that its requests alone do not show, each beside the Rust where it has them.

mod align;
mod cases;
mod convert;
mod count;
mod done;
mod records;
mod registers;
mod replays;
mod seat;
mod tapes;

use self::count::Compared;
use crate::command::Verdict;
use crate::command::said::{ready, said};
use std::time::Instant;

const LEAVES: [(&str, fn() -> Compared); 8] = [
    ("conversions", convert::compared),
    ("align", align::compared),
    ("done slot", done::compared),
    ("registers", registers::compared),
    ("records", records::compared),
    ("replays", replays::compared),
    ("traces in blocks", tapes::compared),
    ("K1 to K10", cases::compared),
];

pub fn run(args: &[String]) -> Verdict {
    ready(args)?;
    said(|| compared().map(|total| format!("leaves: {total} compared")))
}

/// All leaves one after another, a line for each: how much was compared.
pub fn compared() -> Compared {
    let mut total = 0;
    for (name, leaf) in LEAVES {
        let begin = Instant::now();
        let count = leaf().map_err(|why| format!("{name}: {why}"))?;
        println!("{name}: {count} compared in {:.1} s", begin.elapsed().as_secs_f64());
        total += count;
    }
    Ok(total)
}
