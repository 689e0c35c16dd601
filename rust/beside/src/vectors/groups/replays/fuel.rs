//! Fuel at the exact cost of a record and one short of it; then what comes after a stop.

use super::super::claims::expect;
use super::records::{BAD, FIRST, MIXED, ONE_FRAME, RESET};
use super::{bytes, fuelled, lay, stand};
use crate::plain::Replay;
use crate::vectors::maker::{Made, Maker};

pub fn make(maker: &mut Maker) -> Made<()> {
    for (name, record, cost) in &ONE_FRAME {
        maker.says(&format!(
            "a {name} of cost {cost}: with one less left it stops and nothing changes; with {cost} left it runs"
        ));
        lay(maker, &[FIRST, *record]);
        exact(maker, *cost)?;
    }
    after_a_stop(maker)
}

/// The first push is replayed; then so much is left.
fn left(maker: &mut Maker, fuel: u64) -> Made<Replay> {
    stand(maker)?;
    let run = maker.replay(fuelled(100), bytes(0, 1), 1)?;
    Ok(Replay {
        fuel: run.spent + fuel,
        ..run
    })
}

fn exact(maker: &mut Maker, cost: u64) -> Made<()> {
    let short = left(maker, cost - 1)?;
    let before = maker.world();
    let stopped = maker.replay(short, bytes(1, 1), 1)?;
    let wanted = Replay {
        stopped: Some(cost),
        ..short
    };
    expect("one less", (stopped, maker.world()), (wanted, before))?;
    let enough = Replay {
        fuel: short.fuel + 1,
        ..short
    };
    let ran = maker.replay(enough, bytes(1, 1), 1)?;
    expect("enough", (ran.number, ran.spent, ran.stopped), (2, enough.fuel, None))
}

fn after_a_stop(maker: &mut Maker) -> Made<()> {
    maker.says("after a stop nothing is looked at: the same record, a reset, a bad one, a trace of eight");
    let more = [&[FIRST, ONE_FRAME[0].1, RESET, BAD][..], &MIXED].concat();
    lay(maker, &more);
    let short = left(maker, 3)?;
    let stopped = maker.replay(short, bytes(1, 1), 1)?;
    expect("stopped", stopped.stopped, Some(4))?;
    let before = maker.world();
    for later in [bytes(1, 1), bytes(2, 1), bytes(3, 1), bytes(4, 8)] {
        let again = maker.replay(stopped, later, 1)?;
        expect("after it", (again, maker.world()), (stopped, before.clone()))?;
    }
    Ok(())
}
