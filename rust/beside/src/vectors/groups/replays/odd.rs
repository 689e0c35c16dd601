//! Runs whose flags are above 1, and with numbers beside a flag of 0: what the trace leaves as it was comes back as it came.

use super::super::claims::expect;
use super::records::{BAD, EXAMPLE, PUSH, RESET};
use super::{bytes, fuelled, lay, stand};
use crate::plain::{Flagged, Replay, State, anew};
use crate::vectors::maker::{Made, Maker};

const MOST: u64 = u64::MAX;

/// A bad record, a pop that no frame stands for, a reset, a push that names no instance, one that names 1, and a restore.
const RECORDS: [[u64; 10]; 6] = [BAD, EXAMPLE[2], RESET, PUSH, EXAMPLE[0], [7, 0, 0, 0, 0, 0, 0, 0, 0, 0]];
const BADS: usize = 0;
const POPS: usize = 1;
const RESETS: usize = 2;
const PUSHES: usize = 3;
const NAMES: usize = 4;
const RESTORES: usize = 5;

pub fn make(maker: &mut Maker) -> Made<()> {
    maker.says("a bad record, a pop, a reset, a push that names no instance, one that names 1, a restore");
    lay(maker, &RECORDS);
    for (words, current) in [
        ("given with flag 2", [2, 7]),
        ("given with flag 2^64 - 1, and 0", [MOST, 0]),
        ("none, with 7 beside it", [0, 7]),
    ] {
        maker.says(&format!(
            "current instance {words}; no stop, with 5 beside it: no record, a bad one, a refused pop"
        ));
        none_accepted(maker, current)?;
        maker.says(&format!(
            "current instance {words}: pushed over without a name, then with the name 1"
        ));
        some_accepted(maker, current)?;
    }
    maker.says("current instance 1 with flag 3: a push that names 1 leaves it, and so does a restore; a reset makes it none");
    kept(maker)?;
    maker.says("a run that stops here is told anew; one that had stopped with flag 9 comes back as it came");
    stops(maker)
}

/// The stand, with its current instance told so.
fn told(maker: &mut Maker, current: Flagged) -> Made<State> {
    stand(maker)?;
    let state = *maker.state();
    maker.give_told(state, current, 12, 10);
    Ok(*maker.state())
}

/// Some records, of which the last has been run; how the stop and the current instance are told then.
fn ran(maker: &mut Maker, run: Replay, stop: Flagged, records: std::ops::Range<usize>, wanted: [Flagged; 2]) -> Made<()> {
    let (_, told) = maker.replay_told(run, stop, bytes(records.start, records.len()), 1)?;
    expect(format!("{records:?} on {run:?}"), [told, maker.current()], wanted)
}

fn none_accepted(maker: &mut Maker, current: Flagged) -> Made<()> {
    let before = told(maker, current)?;
    for records in [BADS..BADS, BADS..BADS + 1, POPS..POPS + 1, BADS..POPS + 1] {
        ran(maker, fuelled(9), [0, 5], records, [[0, 5], current])?;
    }
    expect("the state", *maker.state(), before)
}

fn some_accepted(maker: &mut Maker, current: Flagged) -> Made<()> {
    for (record, after) in [(PUSHES, current), (NAMES, [1, 1])] {
        told(maker, current)?;
        ran(maker, fuelled(9), [0, 5], record..record + 1, [[0, 5], after])?;
    }
    Ok(())
}

fn kept(maker: &mut Maker) -> Made<()> {
    let one = [3, 1];
    told(maker, one)?;
    for (record, after) in [(NAMES, one), (RESTORES, one), (RESETS, anew(None))] {
        ran(maker, fuelled(9), anew(None), record..record + 1, [anew(None), after])?;
    }
    Ok(())
}

fn stops(maker: &mut Maker) -> Made<()> {
    let current = [2, 7];
    told(maker, current)?;
    ran(maker, fuelled(3), [0, 4], PUSHES..PUSHES + 1, [[1, 4], current])?;
    ran(maker, fuelled(9), [9, 4], PUSHES..PUSHES + 1, [[9, 4], current])
}
