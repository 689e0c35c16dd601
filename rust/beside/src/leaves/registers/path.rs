//! Requests of every kind, accepted and refused, each with the number that it gets: the way that registers go.

use crate::case::Step;
use crate::example::{P, Q};
use crate::plain::{HostFrame, Request};

fn ask(request: Request) -> Step {
    Step::Ask(request)
}

fn of_kind(kind: u64) -> Request {
    Request {
        kind,
        caller: Some(103),
        instance: Some(2),
        ..Request::default()
    }
}

fn host(kind: u64, head: u16) -> Step {
    ask(Request {
        head,
        params: 1,
        results: 2,
        ..of_kind(kind)
    })
}

fn set(head: u16) -> Step {
    ask(Request {
        head,
        callee: 9,
        ..of_kind(9)
    })
}

fn replace(params: u16) -> Step {
    ask(Request {
        head: 1,
        params,
        locals: 2,
        slots: 3,
        callee: 300,
        ..of_kind(3)
    })
}

fn part(end: u64) -> Step {
    let frame = HostFrame {
        start: 3,
        end,
        params: 1,
        results: 2,
    };
    Step::Part {
        frame,
        write: Some((1, 77)),
    }
}

fn pop() -> Step {
    ask(of_kind(2))
}

pub fn restore() -> Step {
    ask(of_kind(7))
}

pub fn reset() -> Step {
    ask(of_kind(8))
}

/// No step of these changes a register.
pub fn kept() -> Vec<(Step, u64)> {
    let bare = |request| Request { instance: None, ..request };
    vec![
        (restore(), 4),
        (ask(bare(P)), 0),
        (restore(), 8),
        (pop(), 1),
        (ask(P), 0),
        (restore(), 0),
        (ask(Q), 0),
        (ask(P), 6),
        (set(1), 0),
        (set(9), 7),
        (replace(1), 0),
        (replace(3), 5),
        (host(4, 1), 0),
        (part(5), 0),
        (part(6), 11),
        (host(4, 8), 2),
        (ask(of_kind(6)), 0),
        (restore(), 0),
        (host(5, 9), 7),
        (host(5, 1), 0),
        (restore(), 0),
        (ask(Q), 0),
        (pop(), 0),
        (restore(), 0),
        (pop(), 1),
        (pop(), 4),
        (restore(), 4),
        (ask(bare(P)), 0),
        (restore(), 0),
    ]
}

/// From the reset on all registers are zeros.
pub fn emptied() -> Vec<(Step, u64)> {
    vec![(reset(), 0), (restore(), 4), (ask(P), 0), (restore(), 0)]
}
