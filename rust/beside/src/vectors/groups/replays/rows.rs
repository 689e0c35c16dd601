//! A record of each kind that would be accepted, with each number that its kind has not set to 1: a replay asks each kind's own row of the table.

use super::super::bytes::Fields;
use super::super::claims::expect;
use super::super::records::good::fields;
use super::records::FIRST;
use super::{bytes, fuelled, lay, stand};
use crate::plain::{KINDS, Replay};
use crate::vectors::maker::{Made, Maker};

/// Each would be accepted over the first push, and all but the restore would leave something changed.
const OVER_ONE: [Fields; 9] = [
    [1, 3, 1, 1, 3, 4, 0, 101, 200, 2],
    [2, 2, 0, 0, 0, 0, 0, 0, 0, 9],
    [3, 2, 2, 2, 3, 5, 0, 0, 250, 3],
    [4, 1, 3, 2, 0, 0, 3, 251, 0, 0],
    [5, 2, 1, 2, 0, 0, 5, 0, 0, 1],
    [6, 0, 0, 0, 0, 0, 0, 120, 0, 0],
    [7, 0, 0, 0, 0, 0, 0, 0, 0, 0],
    [8, 0, 0, 0, 0, 0, 0, 0, 0, 0],
    [9, 0, 1, 0, 0, 0, 0, 0, 55, 0],
];

pub fn make(maker: &mut Maker) -> Made<()> {
    maker.says("a push, and over it records of each kind with each number that the kind has not: 10, at a cost of 1 each");
    lay(maker, &[FIRST]);
    stand(maker)?;
    let mut run = maker.replay(fuelled(100), bytes(0, 1), 1)?;
    for (over, name) in OVER_ONE.into_iter().zip(KINDS) {
        maker.says(name);
        run = refused(maker, run, name, &broken(over))?;
    }
    Ok(())
}

/// Of the five counts and three words, those that are 0 in a good record of the kind.
fn broken(over: Fields) -> Vec<Fields> {
    let good = fields(over[0]);
    let unused = (2..good.len()).filter(|field| good[*field] == 0);
    let set = |field: usize| {
        let mut fields = over;
        fields[field] = 1;
        fields
    };
    unused.map(set).collect()
}

/// Nothing changes.
fn refused(maker: &mut Maker, run: Replay, name: &str, broken: &[Fields]) -> Made<Replay> {
    lay(maker, broken);
    let before = *maker.state();
    let ran = maker.replay(run, bytes(0, broken.len()), 1)?;
    let records = broken.len() as u64;
    expect(name, [ran.number, ran.spent], [run.number + records, run.spent + records])?;
    expect(name, *maker.state(), before)?;
    Ok(ran)
}
