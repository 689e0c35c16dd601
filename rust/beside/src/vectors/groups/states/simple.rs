//! Sync 9, 4. Restore 9, 4, 8. Set 9, 4, 7. Reset and register sync 9.
//! L is 10, M 12 and `len` 6; three frames begin at 0, 2 and 4.

use super::super::claims::{asked, expect, opened, row};
use super::super::kinds::{IP, MOST, RESET, RESTORE, push, set, sync};
use super::super::scene::{Group, nine_before, on, tell};
use crate::plain::{Answer, Regs};
use crate::vectors::maker::{Made, Maker};

const GROUPS: &[Group] = &[
    (
        "sync: 4 without a frame; over one it is done",
        &[(on(12, 0), sync(400), 4), (on(12, 1), sync(400), 0)],
    ),
    (
        "sync: over three frames only the ip of the newest is another",
        &[(on(12, 3), sync(400), 0)],
    ),
    (
        "restore: 4 without a frame; over two it is done",
        &[(on(12, 0), RESTORE, 4), (on(12, 2), RESTORE, 0)],
    ),
    (
        "set: 4 without a frame; over one it is done",
        &[(on(12, 0), set(0, 9), 4), (on(12, 1), set(0, 9), 0)],
    ),
    (
        "set: 4 before 7: without a frame, then over one",
        &[(on(12, 0), set(MOST, 9), 4), (on(12, 1), set(MOST, 9), 7)],
    ),
    (
        "set: 7 at `len` 6, which is below L and M; at 5 it is done",
        &[(on(12, 1), set(6, 9), 7), (on(12, 1), set(5, 9), 0)],
    ),
    (
        "set: 7 over a frame at 2 counts the start: head 4 is refused, 3 is done",
        &[(on(12, 2), set(4, 9), 7), (on(12, 2), set(3, 9), 0)],
    ),
    ("set: a sum beyond 16 bits: 2 and 65,534", &[(on(12, 2), set(65_534, 9), 7)]),
    (
        "reset: gives 0 without a frame and with two; the words stay",
        &[(on(12, 0), RESET, 0), (on(12, 2), RESET, 0)],
    ),
];

pub fn make(maker: &mut Maker) -> Made<()> {
    for (words, q) in [
        ("sync: 9 before 4: `len` above L, then not, without a frame", sync(400)),
        ("restore: 9 before 4: `len` above L, then not, without a frame", RESTORE),
        ("set: 9 before 4: `len` above L, then not, without a frame", set(0, 9)),
    ] {
        nine_before(maker, words, on(12, 0), (q, 4))?;
    }
    tell(maker, GROUPS)?;
    restores(maker)?;
    ends_of_len(maker)?;
    registers(maker)?;
    every_row(maker)
}

/// Without a current instance.
fn restores(maker: &mut Maker) -> Made<()> {
    maker.says("restore: 4 before 8: without frame and instance, then with a frame; with an instance it is done");
    opened(maker, [96, 2, 8, 4])?;
    asked(maker, &RESTORE, 4)?;
    asked(maker, &push(None, [0, 0, 0, 1]), 0)?;
    asked(maker, &RESTORE, 8)?;
    let mut named = push(IP, [1, 0, 0, 1]);
    named.instance = Some(7);
    asked(maker, &named, 0)?;
    let answer = asked(maker, &RESTORE, 0)?;
    expect("restore", [answer.offset, answer.ip, answer.instance], [1, 400, 7])
}

/// `len` at L, and 0.
fn ends_of_len(maker: &mut Maker) -> Made<()> {
    maker.says("set: with `len` at L 4, head 4 is refused, 3 is done");
    opened(maker, [96, 2, 8, 4])?;
    asked(maker, &push(None, [0, 0, 0, 4]), 0)?;
    asked(maker, &set(4, 9), 7)?;
    expect("the cell", asked(maker, &set(3, 9), 0)?.offset, 3)?;
    maker.says("set: with `len` 0 no cell is there");
    opened(maker, [96, 2, 8, 4])?;
    asked(maker, &push(None, [0, 0, 0, 0]), 0)?;
    asked(maker, &set(0, 9), 7).map(|_| ())
}

const REGS: Regs = Regs {
    ireg: 5,
    freg32: 0x3fc0_0000,
    freg64: 0x4004_0000_0000_0000,
};

fn registers(maker: &mut Maker) -> Made<()> {
    for frames in [0, 2] {
        maker.says(&format!(
            "register sync: gives 0 with {frames} frames; a reset makes the registers zeros again"
        ));
        on(12, frames).stand(maker)?;
        expect("register sync", maker.registers(REGS)?, Answer::of(0))?;
        expect("kept", maker.state().regs, REGS)?;
        asked(maker, &RESET, 0)?;
        expect("reset", maker.state().regs, Regs::default())?;
    }
    Ok(())
}

/// A row for each of three frames, laid down: restore reads ip and start of the newest, sync stores its ip and nothing else.
fn every_row(maker: &mut Maker) -> Made<()> {
    maker.says("rows: restore reads the row of the newest frame, sync stores one word of it, a push writes the four of the next");
    opened(maker, [96, 3, 13, 4])?;
    let rows = [[11, 1, 1, 14], [21, 2, 1, 24], [31, 3, 1, 34]];
    (0..).zip(rows.as_flattened()).for_each(|(i, word)| maker.give_word(i, *word));
    for (frame, laid) in rows.iter().enumerate() {
        let mut state = *maker.state();
        (state.count, state.len, state.current) = (frame as u64 + 1, 4, Some(9));
        maker.give(state, 13, 4);
        let read = asked(maker, &RESTORE, 0)?;
        expect("restore", [read.ip, read.offset], [laid[0], laid[1]])?;
        let stored = 100 + frame as u64;
        asked(maker, &sync(stored), 0)?;
        expect("sync", row(maker, frame), [stored, laid[1], laid[2], laid[3]])?;
    }
    let mut state = *maker.state();
    state.count = 1;
    maker.give(state, 13, 4);
    asked(maker, &push(Some(12), [1, 0, 0, 2]), 0)?;
    let rows = [0, 1, 2].map(|frame| row(maker, frame));
    expect("push", rows, [[12, 1, 1, 14], [400, 2, 0, 0], [102, 3, 1, 34]])
}
