//! The reading on document 01's own examples: K1 to K9 and the listing.

use super::{Reading, replay, write_record};
use crate::example::{NOTHING, P, Q};
use crate::plain::{Answer, HostFrame, Replay, Request};

/// The document's world, M 80 bytes and D 3, with so many cells lent, after some requests; and the last answer.
fn after(cells: usize, requests: &[Request]) -> (Reading, Answer) {
    let (number, mut reading) = Reading::open(80, 3, vec![7; 12], vec![7; cells]);
    assert_eq!(number, 0);
    let last = requests.iter().fold(Answer::default(), |_, q| reading.ask(q));
    (reading, last)
}

fn row(reading: &Reading, index: usize) -> [u64; 4] {
    std::array::from_fn(|i| reading.words[4 * index + i])
}

fn push(head: u16, slots: u16) -> Request {
    Request {
        kind: 1,
        head,
        slots,
        caller: Some(101),
        callee: 200,
        ..NOTHING
    }
}

#[test]
fn k1_fifteen_bytes_are_one_cell() {
    assert_eq!(Reading::open(15, 0, vec![], vec![]).1.state.height, 1);
}

#[test]
fn k2_a_debt_is_made_and_paid() {
    let (reading, _) = after(10, &[P, Q]);
    assert_eq!(reading.cells, [0, 0, 7, 0, 7, 7, 7, 7, 7, 7]);
    assert_eq!((row(&reading, 0), row(&reading, 1)), ([101, 0, 0, 0], [200, 2, 1, 1]));
    assert_eq!(reading.state.current, Some(2));
    let (reading, answer) = after(
        10,
        &[
            P,
            Q,
            Request {
                kind: 2,
                instance: Some(2),
                ..NOTHING
            },
        ],
    );
    assert_eq!(
        answer,
        Answer {
            ip: 101,
            instance: 1,
            ..Answer::default()
        }
    );
    assert_eq!((reading.state.current, reading.state.len), (Some(1), 5));
}

#[test]
fn k3_k4_the_two_limits() {
    let (reading, answer) = after(10, &[P, push(4, 6)]);
    assert_eq!((answer.number, reading.state.len), (0, 10));
    assert_eq!(after(10, &[P, push(4, 7)]), (after(10, &[P]).0, Answer::of(2)));
    assert_eq!(after(8, &[P, push(4, 6)]), (after(8, &[P]).0, Answer::of(3)));
}

#[test]
fn k5_a_frame_without_slots() {
    let (reading, answer) = after(10, &[P, push(0, 0)]);
    assert_eq!((answer, reading.state.count, reading.state.len), (Answer::of(0), 2, 4));
}

#[test]
fn k6_a_tail_call_keeps_its_debt() {
    let set = Request {
        kind: 9,
        head: 1,
        callee: 9,
        ..NOTHING
    };
    let replace = Request {
        kind: 3,
        head: 1,
        params: 1,
        locals: 2,
        slots: 3,
        callee: 300,
        instance: Some(1),
        ..NOTHING
    };
    let (reading, answer) = after(10, &[P, Q, set, replace]);
    assert_eq!(
        answer,
        Answer {
            offset: 2,
            ..Answer::default()
        }
    );
    assert_eq!(
        (&reading.cells[2..4], row(&reading, 1), reading.state.current),
        (&[9, 0][..], [300, 2, 1, 1], Some(1))
    );
}

#[test]
fn k7_the_last_frames_debt_is_forgotten() {
    let replace = Request {
        kind: 3,
        slots: 4,
        callee: 300,
        instance: Some(2),
        ..NOTHING
    };
    let (reading, answer) = after(
        10,
        &[
            P,
            replace,
            Request {
                kind: 2,
                instance: Some(7),
                ..NOTHING
            },
        ],
    );
    assert_eq!((answer, reading.state.current), (Answer::of(1), Some(2)));
}

#[test]
fn k8_parameters_beyond_the_new_length() {
    let replace = |slots| Request {
        kind: 3,
        head: 3,
        params: 2,
        locals: 2,
        slots,
        callee: 300,
        ..NOTHING
    };
    assert_eq!(after(10, &[P, replace(4)]), (after(10, &[P]).0, Answer::of(7)));
    assert_eq!(after(10, &[P, replace(5)]).1, Answer::of(0));
}

#[test]
fn k9_a_hosts_tail_call() {
    let back = |head| Request {
        kind: 5,
        head,
        results: 1,
        instance: Some(2),
        ..NOTHING
    };
    let (_, answer) = after(10, &[P, Q, back(3)]);
    assert_eq!(
        answer.host,
        HostFrame {
            start: 2,
            end: 3,
            params: 0,
            results: 1
        }
    );
    assert_eq!(after(10, &[P, Q, back(4)]), (after(10, &[P, Q]).0, Answer::of(7)));
}

#[test]
fn the_documents_listing() {
    let pop = Request {
        kind: 2,
        instance: Some(2),
        ..NOTHING
    };
    let mut trace = [0; 200];
    for (i, q) in [P, Q, pop, pop, pop].iter().enumerate() {
        assert_eq!(write_record(&mut trace, 40 * i as u64, q), 0);
    }
    let (_, mut reading) = Reading::open(32_768, 64, vec![0; 256], vec![0; 4096]);
    let mut lines = Vec::new();
    let run = Replay {
        fuel: 1_000_000,
        ..Replay::default()
    };
    let run = replay(&mut reading, run, &trace, |a, r| {
        lines.push([a.number, a.offset, r.state.count, r.state.len])
    });
    assert_eq!(lines, [[0, 0, 1, 4], [0, 2, 2, 5], [0, 0, 1, 5], [1, 0, 0, 5], [4, 0, 0, 5]]);
    assert_eq!((run.number, run.spent, run.stopped), (5, 8, None));
}

#[test]
fn a_short_tail_is_a_record_and_fuel_must_cover_it() {
    let (_, mut reading) = Reading::open(80, 3, vec![0; 12], vec![0; 10]);
    let nothing = Replay::default();
    assert_eq!(replay(&mut reading, nothing, &[], |_, _| ()), nothing);
    assert_eq!(
        replay(&mut reading, nothing, &[1], |_, _| ()),
        Replay {
            stopped: Some(1),
            ..nothing
        }
    );
    let one = Replay { fuel: 1, ..nothing };
    assert_eq!(
        replay(&mut reading, one, &[1], |_, _| ()),
        Replay {
            number: 1,
            spent: 1,
            ..one
        }
    );
}
