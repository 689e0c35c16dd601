//! edges: document 01's example, and its cases K1 to K10, each in an opening of its own.

use super::claims::{all_asked, asked, expect, group, opened, row};
use super::kinds::{calling, naming, pop, push, replace, return_host, set};
use crate::example::{P, Q};
use crate::plain::{HostFrame, Request};
use crate::vectors::maker::{Made, Maker};

/// M 80 bytes, L 10, D 3.
const WORLD: [u64; 4] = [80, 3, 12, 10];

const CASES: [fn(&mut Maker) -> Made<()>; 11] = [example, k1, k2, k3, k4, k5, k6, k7, k8, k9, k10];

pub fn make(maker: &mut Maker) -> Made<()> {
    maker.file(
        "edges",
        "Document 01's example and its cases K1 to K10, each in an opening of its own.",
    );
    CASES.iter().try_for_each(|case| case(maker))
}

/// A push over P's frame.
const fn over(head: u16, slots: u16) -> Request {
    calling(200, push(Some(101), [head, 0, 0, slots]))
}

/// Beside each record its line of the example: answer, offset, depth, `len`.
fn example(maker: &mut Maker) -> Made<()> {
    let lines = [
        (P, [0, 0, 1, 4]),
        (Q, [0, 2, 2, 5]),
        (pop(2), [0, 0, 1, 5]),
        (pop(2), [1, 0, 0, 5]),
        (pop(2), [4, 0, 0, 5]),
    ];
    maker.says("the example: P, Q and three pops that give instance 2 are answered 0, 0, 0, 1 and 4");
    opened(maker, WORLD)?;
    lines.iter().try_for_each(|(q, line)| {
        let answer = maker.ask(q)?;
        let s = maker.state();
        expect("the example", [answer.number, answer.offset, s.count, s.len], *line)
    })
}

fn k1(maker: &mut Maker) -> Made<()> {
    let asks = [(push(None, [0, 0, 0, 2]), 2), (push(None, [0, 0, 0, 1]), 0)];
    group(maker, "K1: 15 bytes make M = 1", [15, 3, 12, 10], &asks)?;
    expect("M", maker.state().height, 1)?;
    opened(maker, WORLD)?;
    expect("M", maker.state().height, 10)
}

fn k2(maker: &mut Maker) -> Made<()> {
    let words = "K2: P, then Q: cell 3 is zero, debt 1, current 2, first ip 101; a pop: ip 101, start 0, current 1, `len` 5";
    group(maker, words, WORLD, &[(P, 0), (Q, 0)])?;
    let now = maker.world();
    let found = (now.cells[3], row(maker, 0), row(maker, 1), now.state.current);
    expect("Q", found, (0, [101, 0, 0, 0], [200, 2, 1, 1], Some(2)))?;
    let back = asked(maker, &pop(2), 0)?;
    let s = maker.state();
    let found = (back.ip, back.offset, s.current, s.len);
    expect("the pop", found, (101, 0, Some(1), 5))?;
    maker.says("K2, further: the words of frames that are gone stay");
    all_asked(maker, &[(pop(2), 1), (pop(2), 4)])?;
    expect("the words", [row(maker, 0), row(maker, 1)], [[101, 0, 0, 0], [200, 2, 1, 1]])
}

fn k3(maker: &mut Maker) -> Made<()> {
    let words = "K3: P, then a push with head 4: slots 7 are refused with 2; with slots 6 `len` is 10";
    group(maker, words, WORLD, &[(P, 0), (over(4, 7), 2), (over(4, 6), 0)])?;
    expect("len", maker.state().len, 10)
}

fn k4(maker: &mut Maker) -> Made<()> {
    let words = "K4: the same with L 8: slots 6 are refused with 3; slots 4 reach its end";
    let asks = [(P, 0), (over(4, 6), 3), (over(4, 4), 0)];
    group(maker, words, [80, 3, 12, 8], &asks).map(|_| ())
}

fn k5(maker: &mut Maker) -> Made<()> {
    let words = "K5: P, then a push with head 0, slots 0 and no instance: offset 0, depth 2, `len` 4";
    let answer = group(maker, words, WORLD, &[(P, 0), (over(0, 0), 0)])?;
    let s = maker.state();
    expect("offset, depth, len", [answer.offset, s.count, s.len], [0, 2, 4])
}

fn k6(maker: &mut Maker) -> Made<()> {
    let words =
        "K6: P, Q, cell 3 set to 9, a replace that names 1: cell 2 is 9, cell 3 zero, debt 1 stays, current 1; a pop finds the debt";
    let tail = naming(Some(1), replace([1, 1, 2, 3]));
    group(maker, words, WORLD, &[(P, 0), (Q, 0), (set(1, 9), 0), (tail, 0)])?;
    let now = maker.world();
    let found = (now.cells[2], now.cells[3], row(maker, 1), now.state.current);
    expect("the replace", found, (9, 0, [500, 2, 1, 1], Some(1)))?;
    expect("the debt", asked(maker, &pop(5), 0)?.instance, 1)
}

fn k7(maker: &mut Maker) -> Made<()> {
    for slots in [0, 4] {
        let words = format!("K7: P, a replace with instance 2 and slots {slots}, then a pop: answer 1, current stays 2");
        let tail = naming(Some(2), replace([0, 0, 0, slots]));
        group(maker, &words, WORLD, &[(P, 0), (tail, 0), (pop(2), 1)])?;
        expect("current", maker.state().current, Some(2))?;
    }
    Ok(())
}

fn k8(maker: &mut Maker) -> Made<()> {
    let words = "K8: P, then a replace with head 3 and 2 parameters: with slots 4 refused with 7, with slots 5 accepted";
    let asks = [(P, 0), (replace([3, 2, 2, 4]), 7), (replace([3, 2, 2, 5]), 0)];
    group(maker, words, WORLD, &asks).map(|_| ())
}

fn k9(maker: &mut Maker) -> Made<()> {
    let words = "K9: P, Q, then a return-host with a result: head 4 is refused with 7; with head 3 the host frame is 2 to 3";
    let asks = [(P, 0), (Q, 0), (return_host([4, 0, 1]), 7), (return_host([3, 0, 1]), 0)];
    let HostFrame { start, end, .. } = group(maker, words, WORLD, &asks)?.host;
    expect("the host frame", [start, end], [2, 3])
}

fn k10(maker: &mut Maker) -> Made<()> {
    maker.says("K10: base 1000: 1003 gives 1008, 1008 gives 1008, 1009 gives 1016");
    for (ip, address) in [(1003, 1008), (1008, 1008), (1009, 1016)] {
        expect(format!("{ip} above 1000"), maker.align(ip, 1000)?, Some(address))?;
    }
    Ok(())
}
