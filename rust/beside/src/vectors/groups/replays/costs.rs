//! Every kind accepted, then every kind but reset refused, with fuel enough: what each costs. (A reset is refused in `given`.)

use super::super::bytes::{Fields, record};
use super::super::claims::expect;
use super::records::{ACCEPTED, Costing, Group, REFUSED};
use super::{bytes, fuelled, lay, stand};
use crate::plain::{Answer, Replay};
use crate::reading::read_record;
use crate::vectors::maker::{Made, Maker};

pub fn make(maker: &mut Maker) -> Made<()> {
    one_by_one(maker, "records of every kind that are accepted one after another", ACCEPTED)?;
    one_by_one(
        maker,
        "records of every kind but reset that are refused, three pushes among them",
        REFUSED,
    )
}

/// All are laid down, and each is replayed by itself.
fn one_by_one(maker: &mut Maker, words: &str, groups: &[Group]) -> Made<()> {
    maker.says(words);
    let fields: Vec<Fields> = groups
        .iter()
        .flat_map(|(_, records)| *records)
        .map(|(fields, ..)| *fields)
        .collect();
    lay(maker, &fields);
    stand(maker)?;
    let mut run = fuelled(100);
    for (words, records) in groups {
        maker.says(words);
        for costing in *records {
            run = one(maker, run, costing)?;
        }
    }
    Ok(())
}

/// The next record.
fn one(maker: &mut Maker, run: Replay, (fields, number, offset, cost): &Costing) -> Made<Replay> {
    let what = format!("record {}", run.number);
    let answer = answered(maker, fields);
    expect(&what, [answer.number, answer.offset], [*number, *offset])?;
    let ran = maker.replay(run, bytes(run.number as usize, 1), 1)?;
    expect(&what, [ran.number, ran.spent], [run.number + 1, run.spent + cost])?;
    Ok(ran)
}

/// What the record would be answered by itself.
fn answered(maker: &Maker, fields: &Fields) -> Answer {
    let read = read_record(&record(*fields), 0);
    read.map_or(Answer::of(10), |q| maker.world().ask(&q))
}
