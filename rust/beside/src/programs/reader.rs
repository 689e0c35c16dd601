//! reader_vectors: traces walked two records a turn, past their end, and single turns at places.

use super::{row, stdout};
use crate::example::{NOTHING, P, Q};
use crate::plain::Request;
use crate::reading::{RECORD_BYTES, read_record, write_record};

const POP: Request = Request {
    kind: 2,
    instance: Some(2),
    ..NOTHING
};

const PLACES: [u64; 6] = [20, 190, 200, 201, u64::MAX - 39, u64::MAX];

/// Document 01's example.
fn example() -> Vec<u8> {
    let mut trace = vec![0xee; 5 * RECORD_BYTES];
    for (at, q) in (0..).step_by(RECORD_BYTES).zip([P, Q, POP, POP, POP]) {
        assert_eq!(write_record(&mut trace, at, &q), 0);
    }
    trace
}

/// Where the next record begins: 40 bytes on, or at the end.
fn place_after(trace: &[u8], at: u64) -> u64 {
    at.saturating_add(RECORD_BYTES as u64).min(trace.len() as u64)
}

/// Kind, flags, five counts and three words, as the bytes have them.
fn fields(record: &[u8]) -> Vec<u64> {
    let number = |bytes: &[u8]| bytes.iter().rev().fold(0, |number, byte| number << 8 | u64::from(*byte));
    let bytes = record[..2].chunks(1);
    let counts = record[2..12].chunks(2);
    bytes.chain(counts).chain(record[16..].chunks(8)).map(number).collect()
}

/// The place, the answer, the next place and the record; a 0 at the end, since reader and cursor are alike.
fn line(trace: &[u8], at: u64) -> String {
    let next = place_after(trace, at);
    let (number, next, record) = match read_record(trace, at) {
        _ if at >= trace.len() as u64 => (0, 0, vec![0; 10]),
        None => (10, next, vec![0; 10]),
        Some(_) => (0, next, fields(&trace[at as usize..][..RECORD_BYTES])),
    };
    row(&[&[at, number, next][..], &record, &[0]].concat())
}

/// Two lines, and the place behind both.
fn turn(trace: &[u8], at: u64) -> (String, u64) {
    let between = place_after(trace, at);
    (line(trace, at) + &line(trace, between), place_after(trace, between))
}

fn walk(title: &str, trace: &[u8]) -> String {
    let (mut lines, mut at) = (format!("{title}\n"), 0);
    for _ in 0..(trace.len() / RECORD_BYTES + 3) / 2 {
        let (two, next) = turn(trace, at);
        lines += &two;
        at = next;
    }
    lines
}

#[test]
fn each_walk_is_the_readings() {
    let good = example();
    let mut bad = good.clone();
    bad[80] = 0;
    let wanted = [
        "place answer next, kind flags head params locals slots results word1 word2 word3, unlike the cursor's\n".to_string(),
        walk("no bytes", &[]),
        walk("the example", &good),
        walk("record 2 bad", &bad),
        walk("a tail of 1 byte", &bad[..121]),
        walk("a tail of 39 bytes", &bad[..79]),
        "places 20, 190, 200, 201, 2^64 - 40, 2^64 - 1\n".to_string(),
        PLACES.map(|at| turn(&bad, at).0).concat(),
    ];
    assert_eq!(stdout("reader_vectors"), wanted.concat());
}
