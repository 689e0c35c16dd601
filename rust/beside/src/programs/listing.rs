//! listing_vectors: the listing of each trace with each fuel that a title of its `stdout` names; then traces as tapes, block by block.

use super::{file, row, stdout};
use crate::plain::Replay;
use crate::reading::{RECORD_BYTES, Reading, replay};

/// Five numbers of at most 20 digits, each with a blank or the line's end behind it.
const LONGEST_LINE: usize = 5 * 21;

/// Room for four of the longest lines.
const FOUR: usize = 4 * LONGEST_LINE;

/// In a script: the end of the trace.
const END: usize = 9_999;

/// The lines of the records that were run, whether it stopped, and the last lines.
struct Listing {
    lines: Vec<String>,
    stopped: bool,
    last: String,
}

/// M 32,768 bytes, D 64, L 4,096.
fn listing(trace: &[u8], fuel: u64) -> Listing {
    let (_, mut stack) = Reading::open(32_768, 64, vec![0; 256], vec![0; 4_096]);
    let begun = Replay { fuel, ..Replay::default() };
    let mut lines = Vec::new();
    let run = replay(&mut stack, begun, trace, |answer, after| {
        let number = lines.len() as u64;
        lines.push(row(&[number, answer.number, answer.offset, after.state.count, after.state.len]));
    });
    let stopped = run.stopped.map(|cost| format!("stopped {} {cost}\n", run.number));
    Listing {
        lines,
        stopped: stopped.is_some(),
        last: stopped.unwrap_or_default() + &format!("spent {}\n", run.spent),
    }
}

fn trace(name: &str) -> Vec<u8> {
    file("listing_vectors", &format!("data/{name}"))
}

fn title(name: &str, fuel: u64) -> String {
    format!("{name}, fuel {fuel}\n")
}

/// Document 02's tape in the plainest way: all that came is listed anew, and the lines that were not told before are the text.
struct Tape {
    came: Vec<u8>,
    fuel: u64,
    ended: bool,
    told: usize,
}

impl Tape {
    /// A short record is one from the end on.
    fn listing(&self) -> Listing {
        let whole = self.came.len() / RECORD_BYTES * RECORD_BYTES;
        let records = if self.ended { &self.came[..] } else { &self.came[..whole] };
        listing(records, self.fuel)
    }

    fn text(&mut self) -> String {
        let lines = self.listing().lines;
        let text = lines[self.told..].concat();
        self.told = lines.len();
        text
    }

    /// The number and the text of a block, with so much room.
    fn block(&mut self, block: &[u8], room: usize) -> (u64, String) {
        let records = (self.came.len() % RECORD_BYTES + block.len()) / RECORD_BYTES;
        if self.listing().stopped || block.is_empty() {
            return (0, String::new());
        }
        if self.ended {
            return (22, String::new());
        }
        if room < records * LONGEST_LINE {
            return (19, String::new());
        }
        self.came.extend(block);
        (0, self.text())
    }

    fn end(&mut self, room: usize) -> (u64, String) {
        let records = (self.came.len() % RECORD_BYTES).min(1);
        if self.listing().stopped || self.ended {
            return (0, String::new());
        }
        if room < records * LONGEST_LINE {
            return (19, String::new());
        }
        self.ended = true;
        (0, self.text())
    }
}

/// A trace by a script: how many bytes come next, or the end, and how much room there is. A block that is refused comes again.
fn played(name: &str, fuel: u64, script: &[(usize, usize)]) -> String {
    let (trace, mut at, mut printed) = (trace(name), 0, title(name, fuel));
    let mut tape = Tape {
        came: Vec::new(),
        fuel,
        ended: false,
        told: 0,
    };
    for &(n, room) in script {
        let (number, text) = if n == END {
            printed += &format!("end {room} ");
            tape.end(room)
        } else {
            let block = &trace[at..trace.len().min(at + n)];
            printed += &format!("block {} {room} ", block.len());
            let (number, text) = tape.block(block, room);
            at += if number == 0 { block.len() } else { 0 };
            (number, text)
        };
        printed += &(row(&[number, text.len() as u64]) + &text);
    }
    printed + &tape.listing().last
}

/// A short trace cut at every byte; rooms of one byte too little, and of just enough; what comes behind an end, and behind a stop.
fn in_blocks() -> String {
    let cut = |k| played("short.trace", 1_000_000, &[(k, FOUR), (FOUR, FOUR), (END, FOUR)]);
    let cuts = (0..=trace("short.trace").len()).map(cut).collect::<String>();
    let room = [(80, 209), (80, 210), (39, 0), (1, 104), (1, 105), (80, FOUR), (END, 0)];
    let short_room = [(81, 209), (81, 210), (END, 104), (END, 105)];
    let behind_end = [(47, FOUR), (0, 0), (END, FOUR), (40, FOUR), (0, 0), (END, 0), (1, 0)];
    let behind_stop = [(79, FOUR), (2, FOUR), (30, 0), (0, 0), (END, 0), (40, 0), (END, 0)];
    let stopped_by_end = [(38, 0), (END, 104), (END, 105), (1, 0), (END, 0)];
    cuts + &played("worked.trace", 8, &room)
        + &played("short.trace", 1_000_000, &short_room)
        + &played("worked.trace", 1_000_000, &behind_end)
        + &played("worked.trace", 3, &behind_stop)
        + &played("only_short.trace", 0, &stopped_by_end)
}

#[test]
fn each_listing_is_the_readings() {
    let printed = stdout("listing_vectors");
    let (whole, blocks) = printed.split_once("in blocks\n").expect("two parts");
    let titles: Vec<(&str, &str)> = whole.lines().filter_map(|line| line.split_once(", fuel ")).collect();
    let listed = |(name, fuel): &(&str, &str)| {
        let fuel = fuel.parse().expect("a number");
        let listing = listing(&trace(name), fuel);
        title(name, fuel) + &listing.lines.concat() + &listing.last
    };
    let wanted: String = titles.iter().map(listed).collect();
    assert_eq!((titles.len(), whole), (25, wanted.as_str()));
    assert_eq!(blocks, in_blocks());
}
