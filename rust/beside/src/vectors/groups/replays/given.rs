//! Runs by value that no replay makes: more spent than was given, numbers at the end of a u64, a stop without a cost, and a broken state.

use super::super::claims::expect;
use super::records::{BAD, ONE_FRAME, PUSH, RESET};
use super::{bytes, fuelled, lay, stand};
use crate::plain::{Replay, State};
use crate::vectors::maker::{Made, Maker};

const MOST: u64 = u64::MAX;

/// A reset, a push of cost 4, a bad record, a replace.
const RESETS: usize = 0;
const PUSHES: usize = 1;
const BADS: usize = 2;
const REPLACES: usize = 3;

pub fn make(maker: &mut Maker) -> Made<()> {
    maker.says("a reset, a push of cost 4, a bad record, a replace");
    lay(maker, &[RESET, PUSH, BAD, ONE_FRAME[1].1]);
    above_the_fuel(maker)?;
    at_the_end(maker)?;
    without_a_cost(maker)?;
    broken(maker)
}

/// Number, fuel and spent.
fn given([number, fuel, spent]: [u64; 3]) -> Replay {
    Replay {
        number,
        fuel,
        spent,
        stopped: None,
    }
}

/// One record, and what the run is after it: number, spent and stop.
fn ran(maker: &mut Maker, run: Replay, record: usize, wanted: (u64, u64, Option<u64>)) -> Made<Replay> {
    let ran = maker.replay(run, bytes(record, 1), 1)?;
    expect(format!("record {record} on {run:?}"), (ran.number, ran.spent, ran.stopped), wanted)?;
    Ok(ran)
}

fn above_the_fuel(maker: &mut Maker) -> Made<()> {
    maker.says("7 spent of 5: a reset and a bad record are stopped before");
    stand(maker)?;
    for record in [RESETS, BADS] {
        ran(maker, given([3, 5, 7]), record, (3, 7, Some(1)))?;
    }
    Ok(())
}

fn at_the_end(maker: &mut Maker) -> Made<()> {
    maker.says("the number 2^64 - 1 goes on to 0: a bad record, a push");
    stand(maker)?;
    let last = given([MOST, 100, 0]);
    ran(maker, last, BADS, (0, 1, None))?;
    ran(maker, last, PUSHES, (0, 4, None))?;
    maker.says("fuel 2^64 - 1 with 4 left: a push runs, then a reset is stopped before");
    stand(maker)?;
    let full = ran(maker, given([0, MOST, MOST - 4]), PUSHES, (1, MOST, None))?;
    ran(maker, full, RESETS, (1, MOST, Some(1))).map(|_| ())
}

fn without_a_cost(maker: &mut Maker) -> Made<()> {
    maker.says("stopped with cost 0: nothing is run");
    stand(maker)?;
    let stopped = Replay {
        stopped: Some(0),
        ..given([3, 100, 0])
    };
    ran(maker, stopped, PUSHES, (3, 0, Some(0))).map(|_| ())
}

/// One word fewer than is lent: all is 9, but for a bad record, which is 10; each costs 1.
fn broken(maker: &mut Maker) -> Made<()> {
    maker.says(
        "a broken state: reset, push, bad record and replace cost 1 each; with no fuel left a reset and a bad record are stopped before",
    );
    stand(maker)?;
    let state = State {
        words: 11,
        ..*maker.state()
    };
    maker.give(state, 12, 10);
    let mut run = fuelled(4);
    for (record, number) in [RESETS, PUSHES, BADS, REPLACES].into_iter().zip(1..) {
        run = ran(maker, run, record, (number, number, None))?;
    }
    for record in [RESETS, BADS] {
        ran(maker, run, record, (4, 4, Some(1)))?;
    }
    expect("the state", *maker.state(), state)
}
