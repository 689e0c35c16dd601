//! tails: what document 02 says of tail calls (T-13), by an example with requests of every sort, and where it ends.

use super::claims::{asked, expect, opened, row};
use super::kinds::{RESTORE, naming, pop, push, replace, set, sync};
use crate::example::{P, Q};
use crate::plain::{Regs, Request};
use crate::vectors::maker::{Made, Maker};

/// M and L 10, D 3.
const WORLD: [u64; 4] = [80, 3, 12, 10];

/// Over P: a frame that starts at 2, of 3 cells, and names no instance.
const OVER: Request = push(Some(102), [2, 0, 0, 3]);

pub fn make(maker: &mut Maker) -> Made<()> {
    maker.file(
        "tails",
        "A run of tail calls: depth, start and older frames stay, len is the largest reached, the instance at the start is owed; and where that ends.",
    );
    example(maker)?;
    without_instance(maker)?;
    over_a_debt(maker)?;
    without_a_caller(maker)
}

fn tail_call(slots: u16, instance: u64) -> Request {
    naming(Some(instance), replace([0, 0, 0, slots]))
}

/// The debt of the newest frame, and the current instance.
type Instances = (Option<u64>, Option<u64>);

fn instances(maker: &Maker) -> Instances {
    let [.., flag, debt] = row(maker, maker.state().count as usize - 1);
    ((flag != 0).then_some(debt), maker.state().current)
}

/// A tail call that is accepted; then `len`, and these.
fn tailed(maker: &mut Maker, slots: u16, instance: u64, len: u64, wanted: Instances) -> Made<()> {
    asked(maker, &tail_call(slots, instance), 0)?;
    let what = format!("a tail call that names {instance}");
    expect(&what, maker.state().len, len)?;
    expect(&what, instances(maker), wanted)
}

/// A return, and the instance that is current after it.
fn returned(maker: &mut Maker, number: u64, current: u64) -> Made<()> {
    asked(maker, &pop(9), number)?;
    expect("the return", maker.state().current, Some(current))
}

fn stand(maker: &mut Maker, words: &str, frames: &[Request], wanted: Instances) -> Made<()> {
    maker.says(words);
    opened(maker, WORLD)?;
    for frame in frames {
        asked(maker, frame, 0)?;
    }
    expect(words, instances(maker), wanted)
}

fn example(maker: &mut Maker) -> Made<()> {
    stand(
        maker,
        "a caller, and a frame that starts at 2, with 1 current and no debt",
        &[P, OVER],
        (None, Some(1)),
    )?;
    let older = row(maker, 0);
    maker.says("three tail calls that name 1, 2 and 1, the last with fewer slots; one beyond M that names 3; a sync, a set, a restore, a register sync");
    tailed(maker, 4, 1, 6, (None, Some(1)))?;
    asked(maker, &sync(9), 0)?;
    asked(maker, &tail_call(9, 3), 2)?;
    asked(maker, &set(1, 9), 0)?;
    tailed(maker, 6, 2, 8, (Some(1), Some(2)))?;
    asked(maker, &RESTORE, 0)?;
    maker.registers(Regs {
        ireg: 8,
        ..Regs::default()
    })?;
    tailed(maker, 3, 1, 8, (Some(1), Some(1)))?;
    expect("depth and start", (maker.state().count, row(maker, 1)[1]), (2, 2))?;
    expect("the older frame", row(maker, 0), older)?;
    maker.says("the return makes 1 current");
    returned(maker, 0, 1)
}

fn without_instance(maker: &mut Maker) -> Made<()> {
    let words =
        "no current instance at the start: nothing is owed for the first that is named, 1; then 1 is owed, and current after the return";
    stand(maker, words, &[naming(None, P), OVER], (None, None))?;
    tailed(maker, 4, 1, 6, (None, Some(1)))?;
    tailed(maker, 4, 2, 6, (Some(1), Some(2)))?;
    returned(maker, 0, 1)
}

fn over_a_debt(maker: &mut Maker) -> Made<()> {
    let words = "a frame with a debt of 1, and 2 current: it keeps that debt, whoever is named, and the return makes 1 current";
    stand(maker, words, &[P, Q], (Some(1), Some(2)))?;
    tailed(maker, 4, 3, 6, (Some(1), Some(3)))?;
    tailed(maker, 4, 2, 6, (Some(1), Some(2)))?;
    returned(maker, 0, 1)
}

fn without_a_caller(maker: &mut Maker) -> Made<()> {
    let words = "no caller's frame: 1 is owed, and forgotten with the last frame; the one that was named last, 2, stays current";
    stand(maker, words, &[P], (None, Some(1)))?;
    tailed(maker, 4, 2, 4, (Some(1), Some(2)))?;
    returned(maker, 1, 2)
}
