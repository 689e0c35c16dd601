//! A trace of eight records, one of them bad and one refused: whole, in two parts cut at every place, and record by record.

use super::super::claims::expect;
use super::records::MIXED;
use super::{bytes, fuelled, lay, stand};
use crate::plain::Replay;
use crate::vectors::maker::{Made, Maker};

const RECORDS: usize = MIXED.len();

/// What each record costs.
const COSTS: [u64; RECORDS] = [3, 1, 3, 1, 4, 1, 4, 1];

pub fn make(maker: &mut Maker) -> Made<()> {
    maker.says("eight records: push, set, push, a bad one, replace, a refused push, return-host, pop");
    lay(maker, &MIXED);
    for (fuel, end, words) in [
        (100, (8, 18, None), "all eight are replayed, and 18 spent"),
        (11, (4, 8, Some(4)), "stopped before the replace, 1 short of its cost 4"),
    ] {
        maker.says(&format!("whole, with fuel {fuel}: {words}"));
        stand(maker)?;
        let whole = maker.replay(fuelled(fuel), bytes(0, RECORDS), 1)?;
        expect("whole", (whole.number, whole.spent, whole.stopped), end)?;
        let world = maker.world();
        maker.says(&format!("with fuel {fuel}, cut after 0 to 8 records: the same"));
        for cut in 0..=RECORDS {
            let parts = in_two(maker, fuel, cut)?;
            expect(format!("cut after {cut}"), (parts, maker.world()), (whole, world.clone()))?;
        }
    }
    by_record(maker)?;
    tails(maker)
}

/// In two parts, the first of which has so many records.
fn in_two(maker: &mut Maker, fuel: u64, cut: usize) -> Made<Replay> {
    stand(maker)?;
    let first = maker.replay(fuelled(fuel), bytes(0, cut), 1)?;
    maker.replay(first, bytes(cut, RECORDS - cut), 1)
}

fn by_record(maker: &mut Maker) -> Made<()> {
    maker.says("record by record; then, at the end, nothing twice");
    stand(maker)?;
    let mut run = fuelled(100);
    for (i, cost) in COSTS.iter().enumerate() {
        let before = run.spent;
        run = maker.replay(run, bytes(i, 1), 1)?;
        expect(format!("record {i}"), run.spent, before + cost)?;
    }
    for _ in 0..2 {
        expect("at the end", maker.replay(run, bytes(RECORDS, 0), 1)?, run)?;
    }
    Ok(())
}

fn tails(maker: &mut Maker) -> Made<()> {
    maker.says("the last 39 bytes alone are a bad record; none is none, and so is none many times or a record no time");
    stand(maker)?;
    let run = fuelled(100);
    let tail = maker.replay(run, 281..320, 1)?;
    expect("39 bytes", (tail.number, tail.spent), (1, 1))?;
    for (range, times) in [(320..320, 1), (320..320, 9), (0..40, 0)] {
        expect("none", maker.replay(tail, range, times)?, tail)?;
    }
    Ok(())
}
