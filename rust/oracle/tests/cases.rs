//! Document 01's cases at the edges, K1 to K10, in the Rust itself.

use oracle::{Answer, Host, Limits, Oracle, Request, leaves};

const WORLD: Limits = Limits {
    bytes: 80,
    depth: 3,
    cells: 10,
};

const P: Request = Request::Push {
    caller: None,
    callee: 100,
    head: 0,
    params: 0,
    locals: 2,
    slots: 4,
    instance: Some(1),
};
const Q: Request = Request::Push {
    caller: Some(101),
    callee: 200,
    head: 2,
    params: 1,
    locals: 2,
    slots: 3,
    instance: Some(2),
};

/// A push over a frame, of slots alone.
fn push(head: u16, slots: u16) -> Request {
    Request::Push {
        caller: Some(101),
        callee: 200,
        head,
        params: 0,
        locals: 0,
        slots,
        instance: None,
    }
}

fn after(limits: Limits, requests: &[Request]) -> (Oracle, Answer) {
    let mut oracle = Oracle::open(limits).expect("within the limits");
    let mut last = Answer::default();
    for request in requests {
        last = oracle.ask(*request).expect("the Rust does what document 01 says");
    }
    (oracle, last)
}

#[test]
fn k1_fifteen_bytes_are_one_cell() {
    let first = |slots| Request::Push {
        caller: None,
        callee: 0,
        head: 0,
        params: 0,
        locals: 0,
        slots,
        instance: None,
    };
    let limits = Limits {
        bytes: 15,
        depth: 1,
        cells: 9,
    };
    assert_eq!(after(limits, &[first(1)]).1.number, 0);
    assert_eq!(after(limits, &[first(2)]).1.number, 2);
}

#[test]
fn k2_a_debt_is_made_and_paid() {
    let (oracle, _) = after(WORLD, &[P, Q]);
    let stack = oracle.stack();
    assert!(oracle.knows(3));
    assert_eq!(stack.cell(3), 0);
    assert_eq!((stack.frame(0), stack.frame(1)), ((101, 0, None), (200, 2, Some(1))));
    assert_eq!(stack.current(), Some(2));
    let (oracle, answer) = after(WORLD, &[P, Q, Request::Pop { instance: 2 }]);
    assert_eq!(
        answer,
        Answer {
            ip: 101,
            instance: 1,
            ..Answer::default()
        }
    );
    assert_eq!((oracle.stack().current(), oracle.stack().cells_len()), (Some(1), 5));
}

#[test]
fn k3_the_height_limit() {
    let (oracle, answer) = after(WORLD, &[P, push(4, 6)]);
    assert_eq!((answer.number, answer.offset, oracle.stack().cells_len()), (0, 4, 10));
    let (oracle, answer) = after(WORLD, &[P, push(4, 7)]);
    assert_eq!((answer.number, oracle.stack().count(), oracle.stack().cells_len()), (2, 1, 4));
}

#[test]
fn k4_the_cells_lent() {
    let (oracle, answer) = after(Limits { cells: 8, ..WORLD }, &[P, push(4, 6)]);
    assert_eq!((answer.number, oracle.stack().count(), oracle.stack().cells_len()), (3, 1, 4));
}

#[test]
fn k5_a_frame_without_slots() {
    let (oracle, answer) = after(WORLD, &[P, push(0, 0)]);
    assert_eq!((answer.number, answer.offset), (0, 0));
    assert_eq!((oracle.stack().count(), oracle.stack().cells_len()), (2, 4));
}

#[test]
fn k6_a_tail_call_keeps_its_debt() {
    let replace = Request::Replace {
        callee: 300,
        head: 1,
        params: 1,
        locals: 2,
        slots: 3,
        instance: Some(1),
    };
    let (oracle, answer) = after(WORLD, &[P, Q, Request::Set { head: 1, cell: 9 }, replace]);
    let stack = oracle.stack();
    assert_eq!((answer.number, answer.offset), (0, 2));
    assert_eq!((stack.cell(2), stack.cell(3)), (9, 0));
    assert_eq!((stack.frame(1), stack.current()), ((300, 2, Some(1)), Some(1)));
}

#[test]
fn k7_the_last_frames_debt_is_forgotten() {
    let replace = Request::Replace {
        callee: 300,
        head: 0,
        params: 0,
        locals: 0,
        slots: 4,
        instance: Some(2),
    };
    let (oracle, answer) = after(WORLD, &[P, replace, Request::Pop { instance: 7 }]);
    assert_eq!(
        answer,
        Answer {
            number: 1,
            ..Answer::default()
        }
    );
    assert_eq!(oracle.stack().current(), Some(2));
}

#[test]
fn k8_parameters_beyond_the_new_length() {
    let replace = |slots| Request::Replace {
        callee: 300,
        head: 3,
        params: 2,
        locals: 2,
        slots,
        instance: None,
    };
    let (oracle, answer) = after(WORLD, &[P, replace(4)]);
    assert_eq!((answer.number, oracle.stack().frame(0).0), (7, 100));
    assert_eq!(after(WORLD, &[P, replace(5)]).1.number, 0);
}

#[test]
fn k9_a_hosts_tail_call() {
    let back = |head| Request::ReturnHost {
        head,
        params: 0,
        results: 1,
        instance: 2,
    };
    let (oracle, answer) = after(WORLD, &[P, Q, back(3)]);
    assert_eq!(
        (answer.number, answer.host),
        (
            0,
            Host {
                start: 2,
                end: 3,
                params: 0,
                results: 1
            }
        )
    );
    assert_eq!((oracle.stack().count(), oracle.stack().current()), (1, Some(1)));
    assert_eq!(after(WORLD, &[P, Q, back(4)]).1.number, 7);
}

#[test]
fn k10_alignment() {
    assert_eq!([1003, 1008, 1009].map(|ip| leaves::align(ip, 1000)), [1008, 1008, 1016].map(Some));
}
