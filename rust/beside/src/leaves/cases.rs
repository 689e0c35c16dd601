//! K1 to K10 of document 01, with its own numbers: all parties take the same steps, and the end is what the document says.

use super::count::{Compared, Count};
use super::seat::Seat;
use crate::case::{Opening, Start, Step};
use crate::example::{NOTHING, P, Q};
use crate::plain::Request;
use cattlecleat::raw;
use oracle::leaves;

const POP: Request = Request {
    kind: 2,
    instance: Some(2),
    ..NOTHING
};

/// The sizes of document 01's cases.
pub const OPENING: Opening = Opening {
    bytes: 80,
    depth: 3,
    words: 12,
    cells: 10,
    fill: 1,
};

fn push(head: u16, slots: u16) -> Request {
    let caller = Some(101);
    Request {
        kind: 1,
        head,
        slots,
        caller,
        ..NOTHING
    }
}

fn replace(head: u16, params: u16, slots: u16, instance: Option<u64>) -> Request {
    Request {
        kind: 3,
        head,
        params,
        locals: 2,
        slots,
        instance,
        ..NOTHING
    }
}

fn return_host(head: u16) -> Request {
    Request {
        kind: 5,
        head,
        results: 1,
        ..POP
    }
}

pub fn compared() -> Compared {
    let mut compared = 0;
    for (name, case) in CASES {
        compared += case().map_err(|why| format!("{name}: {why}"))?;
    }
    Ok(compared)
}

const CASES: [(&str, fn() -> Compared); 10] = [
    ("K1", k1),
    ("K2", k2),
    ("K3", k3),
    ("K4", k4),
    ("K5", k5),
    ("K6", k6),
    ("K7", k7),
    ("K8", k8),
    ("K9", k9),
    ("K10", k10),
];

/// A seat after requests, each with the number that it must get.
fn after(opening: Opening, asked: &[(Request, u64)]) -> Result<Seat, String> {
    let mut seat = Seat::new(Start::Open(opening))?;
    for (request, number) in asked {
        seat.take(Step::Ask(*request), *number)?;
    }
    Ok(seat)
}

/// Depth, `len` and the current instance.
fn shape(seat: &Seat) -> (u64, u64, Option<u64>) {
    let state = &seat.now().state;
    (state.count, state.len, state.current)
}

fn k1() -> Compared {
    let opening = Opening { bytes: 15, ..OPENING };
    let one = Request { locals: 0, slots: 1, ..P };
    let mut seat = after(opening, &[(Request { slots: 2, ..one }, 2), (one, 0)])?;
    seat.same(seat.now().state.height, 1, "M")?;
    Ok(seat.count.compared)
}

fn k2() -> Compared {
    let mut seat = after(OPENING, &[(P, 0), (Q, 0)])?;
    let now = seat.now();
    let found = (now.cells[3], now.words[6..8].to_vec(), now.words[0]);
    seat.same(found, (0, vec![1, 1], 101), "cell 3, the debt and the first ip")?;
    seat.same(shape(&seat), (2, 5, Some(2)), "depth, len and current")?;
    let popped = seat.answered(Step::Ask(POP))?;
    seat.same((popped.number, popped.ip, popped.offset), (0, 101, 0), "answer, ip and start")?;
    seat.same(shape(&seat), (1, 5, Some(1)), "depth, len and current")?;
    Ok(seat.count.compared)
}

fn k3() -> Compared {
    let mut seat = after(OPENING, &[(P, 0), (push(4, 7), 2), (push(4, 6), 0)])?;
    seat.same(seat.now().state.len, 10, "len")?;
    Ok(seat.count.compared)
}

fn k4() -> Compared {
    let opening = Opening { cells: 8, ..OPENING };
    let mut seat = after(opening, &[(P, 0), (push(4, 6), 3)])?;
    seat.same(shape(&seat), (1, 4, Some(1)), "depth, len and current")?;
    Ok(seat.count.compared)
}

fn k5() -> Compared {
    let mut seat = after(OPENING, &[(P, 0)])?;
    let pushed = seat.answered(Step::Ask(push(0, 0)))?;
    seat.same((pushed.number, pushed.offset), (0, 0), "answer and offset")?;
    seat.same(shape(&seat), (2, 4, Some(1)), "depth, len and current")?;
    Ok(seat.count.compared)
}

fn k6() -> Compared {
    let set = Request {
        kind: 9,
        head: 1,
        callee: 9,
        ..NOTHING
    };
    let mut seat = after(OPENING, &[(P, 0), (Q, 0), (set, 0), (replace(1, 1, 3, Some(1)), 0)])?;
    let now = seat.now();
    let found = (now.cells[2..4].to_vec(), now.words[6..8].to_vec());
    seat.same(found, (vec![9, 0], vec![1, 1]), "cells 2 and 3, and the debt")?;
    seat.same(shape(&seat), (2, 5, Some(1)), "depth, len and current")?;
    Ok(seat.count.compared)
}

fn k7() -> Compared {
    let mut seat = after(OPENING, &[(P, 0), (replace(0, 0, 4, Some(2)), 0), (POP, 1)])?;
    seat.same(seat.now().state.current, Some(2), "current")?;
    Ok(seat.count.compared)
}

fn k8() -> Compared {
    let mut seat = after(OPENING, &[(P, 0), (replace(3, 2, 4, None), 7), (replace(3, 2, 5, None), 0)])?;
    seat.same(seat.now().state.len, 5, "len")?;
    Ok(seat.count.compared)
}

fn k9() -> Compared {
    let mut seat = after(OPENING, &[(P, 0), (Q, 0), (return_host(4), 7)])?;
    let returned = seat.answered(Step::Ask(return_host(3)))?;
    let found = (returned.number, returned.host.start, returned.host.end);
    seat.same(found, (0, 2, 3), "answer and host frame")?;
    Ok(seat.count.compared)
}

fn k10() -> Compared {
    let mut count = Count::default();
    for (ip, wanted) in [(1003, 1008), (1008, 1008), (1009, 1016)] {
        let found = (raw::align(ip, 1000), leaves::align(ip, 1000));
        let aligned = raw::Aligned {
            number: 0,
            address: wanted,
        };
        count.same(found, (aligned, Some(wanted)), || format!("{ip} above 1000"))?;
    }
    Ok(count.compared)
}
