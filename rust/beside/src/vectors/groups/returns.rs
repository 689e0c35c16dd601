//! returns: a call, whatever happens after it, and its return; then where the return theorem ends.

use super::claims::{all_asked, asked, expect, opened, row};
use super::kinds::{RESTORE, calling, host, naming, pop, push, replace, return_host, set, sync};
use crate::example::{P, Q};
use crate::plain::{Answer, HostFrame, Regs, Request};
use crate::reading::Reading;
use crate::vectors::maker::{Made, Maker};

/// M and L 12, D 4.
const WORLD: [u64; 4] = [96, 4, 16, 12];

pub fn make(maker: &mut Maker) -> Made<()> {
    maker.file(
        "returns",
        "A call over two frames, whatever happens after it, and its return; then where the return theorem ends.",
    );
    for back in [POP, RETURN_HOST] {
        let before = called(maker, &format!("a call and its return by {}", back.0))?;
        hosts_in_between(maker, false)?;
        returned(maker, &before, &back)?;
    }
    two_returns_of_one_call(maker)?;
    ENDS.iter().try_for_each(|end| end(maker))
}

/// The two ways to return, each with its name.
type Back = (&'static str, Request);

const POP: Back = ("a pop", pop(2));
const RETURN_HOST: Back = ("a return-host", return_host([5, 1, 1]));

/// The hosts write what they were lent. After the first return the state is laid down again as it was before it.
fn two_returns_of_one_call(maker: &mut Maker) -> Made<()> {
    let before = called(
        maker,
        "a call in which hosts write their parts, and its return, by a pop and by a return-host",
    )?;
    hosts_in_between(maker, true)?;
    let state = *maker.state();
    returned(maker, &before, &POP)?;
    maker.give(state, before.words.len(), before.cells.len());
    returned(maker, &before, &RETURN_HOST)
}

/// A call by P's frame, in its instance; its frame is the caller of the call that is looked at.
const BETWEEN: Request = calling(150, push(Some(101), [1, 0, 1, 3]));

/// Q with the caller's ip 151.
const CALL: Request = Request { caller: Some(151), ..Q };

/// Two frames, the call, and all that happens in it but hosts. What was before the call is handed back.
fn called(maker: &mut Maker, words: &str) -> Made<Reading> {
    maker.says(&format!("{words}: two frames, with cells set in each"));
    opened(maker, WORLD)?;
    all_asked(maker, &[(P, 0), (set(0, 4), 0), (BETWEEN, 0), (set(0, 5), 0), (set(2, 6), 0)])?;
    let before = maker.world();
    maker.says("the call; a set, a sync, a register sync and a restore in it");
    asked(maker, &CALL, 0)?;
    in_the_callee(maker)?;
    calls_in_between(maker)?;
    Ok(before)
}

fn in_the_callee(maker: &mut Maker) -> Made<()> {
    all_asked(maker, &[(set(1, 9), 0), (sync(210), 0)])?;
    let regs = Regs {
        ireg: 5,
        freg32: 0x3fc0_0000,
        freg64: 0x4004_0000_0000_0000,
    };
    expect("register sync", maker.registers(regs)?, Answer::of(0))?;
    let found = asked(maker, &RESTORE, 0)?;
    expect("restore", (found.offset, found.ip, found.instance, found.regs), (3, 210, 2, regs))
}

/// A call by Q's frame.
const fn nested(caller: Option<u64>) -> Request {
    naming(Some(3), calling(500, push(caller, [2, 1, 2, 4])))
}

fn calls_in_between(maker: &mut Maker) -> Made<()> {
    maker.says(
        "two tail calls, one refused; a call without an ip, one with it, one beyond the depth; a set beyond `len`; the call's return",
    );
    let tail = |callee, counts, instance| naming(Some(instance), calling(callee, replace(counts)));
    let asks = [
        (tail(300, [1, 1, 2, 3], 4), 0),
        (tail(400, [0, 2, 3, 5], 5), 0),
        (tail(400, [0, 3, 2, 5], 5), 5),
        (nested(None), 6),
        (nested(Some(410)), 0),
        (nested(Some(510)), 2),
        (set(4, 9), 7),
        (pop(3), 0),
    ];
    let back = all_asked(maker, &asks)?;
    expect("the nested return", [back.offset, back.ip, back.instance], [3, 410, 5])
}

fn hosts_in_between(maker: &mut Maker, writes: bool) -> Made<()> {
    maker.says("two hosts: their frames, their parts, and a part beyond `len`");
    let lent = asked(maker, &host(Some(420), [5, 1, 2]), 0)?.host;
    expect("the host frame", [lent.start, lent.end], [8, 10])?;
    let beyond = HostFrame {
        start: lent.start + 1,
        end: lent.end + 1,
        ..lent
    };
    for (frame, number) in [(lent, 0), (beyond, 11)] {
        expect("the part", maker.part(&frame)?.number, number)?;
    }
    if writes {
        (lent.start..lent.end).for_each(|cell| maker.give_cell(cell as usize, 8));
    }
    let again = asked(maker, &host(None, [5, 2, 1]), 0)?.host;
    expect("the part", maker.part(&again)?.number, 0)?;
    if writes {
        maker.give_cell(again.start as usize, 16);
    }
    Ok(())
}

/// The older frame and the caller's start and debt, and all cells before the callee's start, are what they were.
fn returned(maker: &mut Maker, before: &Reading, (how, back): &Back) -> Made<()> {
    maker.says(&format!(
        "the return by {how}: ip 151, instance 1, start 1; the caller's frame and all cells before 3 are as before the call"
    ));
    let answer = asked(maker, back, 0)?;
    let s = *maker.state();
    expect("the return", [answer.offset, answer.ip, answer.instance], [1, 151, 1])?;
    expect("count, len, current", (s.count, s.len, s.current), (2, 10, Some(1)))?;
    let now = maker.world();
    expect("the older frame", &now.words[..4], &before.words[..4])?;
    expect("the caller's frame", row(maker, 1), [151, 1, 0, 0])?;
    expect("the caller's cells", &now.cells[..3], &before.cells[..3])
}

/// The six cases in which the theorem does not say what one might expect, in its own order.
const ENDS: [fn(&mut Maker) -> Made<()>; 6] = [
    without_instance,
    without_caller,
    other_instance_given,
    older_part,
    part_nobody_handed_out,
    below_the_callee,
];

fn began(maker: &mut Maker, words: &str, asks: &[(Request, u64)]) -> Made<Answer> {
    maker.says(words);
    opened(maker, WORLD)?;
    all_asked(maker, asks)
}

fn without_instance(maker: &mut Maker) -> Made<()> {
    let words = "where it ends: without a current instance before the call, the callee's stays current";
    began(maker, words, &[(naming(None, P), 0), (Q, 0), (pop(2), 0)])?;
    expect(words, maker.state().current, Some(2))
}

fn without_caller(maker: &mut Maker) -> Made<()> {
    let words = "where it ends: with an instance 1 but no caller's frame, the last pop restores nothing: 2 stays current";
    began(maker, words, &[(P, 0), (pop(1), 1), (naming(Some(2), P), 0), (pop(2), 1)])?;
    expect(words, maker.state().current, Some(2))
}

/// A push over a frame, without parameters, locals and instance.
const fn plain(head: u16, slots: u16) -> Request {
    calling(300, push(Some(102), [head, 0, 0, slots]))
}

fn other_instance_given(maker: &mut Maker) -> Made<()> {
    let words = "where it ends: of a callee without a debt the return's answer names the 7 that it gives; current is 1";
    let back = began(maker, words, &[(P, 0), (plain(0, 0), 0), (pop(7), 0)])?;
    expect(words, (back.instance, maker.state().current), (7, Some(1)))
}

fn older_part(maker: &mut Maker) -> Made<()> {
    let words =
        "where it ends: a host writes cell 1 in the call, through the part 0 to 2 that it was lent before: the caller's cell is another";
    began(maker, words, &[(P, 0)])?;
    let lent = asked(maker, &host(Some(101), [0, 2, 0]), 0)?.host;
    expect("the part", [lent.start, lent.end], [0, 2])?;
    asked(maker, &Q, 0)?;
    written(maker)
}

fn part_nobody_handed_out(maker: &mut Maker) -> Made<()> {
    let words = "where it ends: the same through a part that is asked for in the call with numbers that no request handed out";
    began(maker, words, &[(P, 0), (Q, 0)])?;
    let first_cells = HostFrame {
        start: 0,
        end: 2,
        params: 2,
        results: 0,
    };
    expect("the part", maker.part(&first_cells)?.number, 0)?;
    written(maker)
}

/// The host writes 8 to cell 1, which was 0; then the return.
fn written(maker: &mut Maker) -> Made<()> {
    let before = maker.world().cells[1];
    maker.give_cell(1, 8);
    asked(maker, &pop(2), 0)?;
    expect("cell 1", [before, maker.world().cells[1]], [0, 8])
}

fn below_the_callee(maker: &mut Maker) -> Made<()> {
    let words = "where it ends: the depth falls below the callee's and rises again: the ip is the second call's, 102";
    let back = began(maker, words, &[(P, 0), (Q, 0), (pop(2), 0), (plain(2, 1), 0), (pop(2), 0)])?;
    expect(words, (back.ip, maker.state().count), (102, 1))
}
