//! Records that read badly, each for one cause: a kind, a flag, or one byte of something that must be zero.

use super::maker::{Made, Maker};
use crate::example::P;
use crate::plain::{KINDS, State};
use crate::reading::{RECORD_BYTES, read_record};

type Record = [u8; RECORD_BYTES];

const WRONG_KINDS: [u8; 4] = [0, 10, 11, 255];
const FLAGS: [u8; 10] = [0, 1, 2, 3, 4, 8, 16, 32, 64, 128];

/// Each field after the flags, by its first byte and its last: five counts, four spare bytes, three words.
const FIELDS: [[usize; 2]; 12] = [
    [2, 3],
    [4, 5],
    [6, 7],
    [8, 9],
    [10, 11],
    [12, 12],
    [13, 13],
    [14, 14],
    [15, 15],
    [16, 23],
    [24, 31],
    [32, 39],
];

const WORLD: [u64; 4] = [80, 3, 12, 10];

/// All of them on a stack with a frame: each is 10, and nothing changes.
pub fn make(maker: &mut Maker) -> Made<()> {
    maker.file("bad", "Records that read badly, each for one cause.");
    maker.sums();
    maker.says("kinds and flags that are not allowed");
    maker.open(WORLD)?;
    maker.ask(&P)?;
    let (good, bad): (Vec<Record>, Vec<Record>) = bases().into_iter().partition(reads);
    asked(maker, &bad)?;
    for record in good {
        maker.says(&format!(
            "{} with flags {}, and one byte where there must be none",
            named(&record),
            record[1]
        ));
        asked(maker, &spoilt(record))?;
    }
    make_on_broken(maker)
}

fn named(record: &Record) -> &'static str {
    KINDS[usize::from(record[0]) - 1]
}

fn asked(maker: &mut Maker, records: &[Record]) -> Made<()> {
    records.iter().try_for_each(|record| maker.record(record).map(|_| ()))
}

/// One of each kind on a broken state: 10 as well. Of a good one the state is looked at: 9.
fn make_on_broken(maker: &mut Maker) -> Made<()> {
    maker.says("on a broken state a bad record is 10 too, and only a good one is 9");
    let broken = State {
        words: 1,
        ..State::default()
    };
    maker.give(broken, 0, 0);
    let wrong = |kind: u8| with(&[0; RECORD_BYTES], &[(0, kind), (15, 1)]);
    let mut records: Vec<Record> = (0..=10).map(wrong).collect();
    records.push(with(&[0; RECORD_BYTES], &[(0, 8)]));
    asked(maker, &records)
}

/// Every kind with every flag, and nothing else in it.
fn bases() -> Vec<Record> {
    let empty = [0; RECORD_BYTES];
    let kinds = WRONG_KINDS.iter().map(|kind| with(&empty, &[(0, *kind)]));
    let flagged = (1..=9).flat_map(|kind| FLAGS.map(|flags| with(&empty, &[(0, kind), (1, flags)])));
    kinds.chain(flagged).collect()
}

/// A good record with one byte more, wherever that makes it a bad one: the first byte of a field, or its last.
fn spoilt(good: Record) -> Vec<Record> {
    let one_byte = |(i, field): (usize, &[usize; 2])| with(&good, &[(field[(i + usize::from(good[0])) % 2], 1 << i.min(7))]);
    let all = FIELDS.iter().enumerate().map(one_byte);
    all.filter(|record| !reads(record)).collect()
}

fn reads(record: &Record) -> bool {
    read_record(record, 0).is_some()
}

fn with(record: &Record, bytes: &[(usize, u8)]) -> Record {
    let mut changed = *record;
    bytes.iter().for_each(|(at, byte)| changed[*at] = *byte);
    changed
}
