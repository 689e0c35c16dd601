//! Document 01's example and its listing, with the program's limits: method by method, walked, and replayed with all amounts of fuel.
use crate::world::{Owned, P, Q};
use cattlecleat::{Limits, Replayed, Request, Stack, Trace};

const REQUESTS: [Request; 5] = [
    Request::Push(P),
    Request::Push(Q),
    Request::Pop(2),
    Request::Pop(2),
    Request::Pop(2),
];

const LISTING: [&str; 5] = ["0 0 0 1 4", "1 0 2 2 5", "2 0 0 1 5", "3 1 0 0 5", "4 4 0 0 5"];

/// Cells zeroed: two locals, and one behind a parameter. The last pop is refused.
const COSTS: [u64; 5] = [3, 2, 1, 1, 1];

fn program() -> Owned {
    let limits = Limits { depth: 64, bytes: 32_768 };
    Stack::open(limits, vec![0; 256], vec![0; 4096]).expect("the program's limits")
}

fn trace() -> Vec<u8> {
    REQUESTS.map(Request::to_record).concat()
}

#[test]
fn the_trace_is_the_one_in_the_examples() {
    assert_eq!(trace(), include_bytes!("../../../examples/worked.trace"));
}

#[test]
fn the_listing() {
    let mut stack = program();
    let bytes = trace();
    let mut lines = Vec::new();
    for (number, read) in Trace::new(&bytes).enumerate() {
        let (answer, offset) = match read.and_then(|request| stack.ask(request)) {
            Ok(answer) => (answer.number, answer.offset),
            Err(refusal) => (refusal.number(), 0),
        };
        lines.push(format!("{number} {answer} {offset} {} {}", stack.depth(), stack.len()));
    }
    assert_eq!(lines, LISTING);
}

#[test]
fn the_replay_spends_8() {
    let mut stack = program();
    let (records, spent, stopped) = (5, 8, None);
    assert_eq!(stack.replay(1_000_000, &trace()), Replayed { records, spent, stopped });
    assert_eq!((stack.depth(), stack.len(), stack.current()), (0, 5, Some(1)));
}

#[test]
fn the_replay_stops_before_what_the_fuel_does_not_cover() {
    for fuel in 0..8 {
        let run = (0..5).find(|n| COSTS[..=*n].iter().sum::<u64>() > fuel).expect("8 is more");
        let (records, spent, stopped) = (run as u64, COSTS[..run].iter().sum(), Some(COSTS[run]));
        assert_eq!(
            program().replay(fuel, &trace()),
            Replayed { records, spent, stopped },
            "fuel {fuel}"
        );
    }
}

#[test]
fn an_empty_trace_is_no_record_and_a_short_tail_is_one() {
    let (records, spent, stopped) = (0, 0, None);
    assert_eq!(program().replay(0, &[]), Replayed { records, spent, stopped });
    for tail in [1, 39] {
        let bytes = [trace(), vec![0; tail]].concat();
        let (records, spent) = (6, 9);
        assert_eq!(program().replay(9, &bytes), Replayed { records, spent, stopped });
        let (records, spent, stopped) = (5, 8, Some(1));
        assert_eq!(program().replay(8, &bytes), Replayed { records, spent, stopped });
    }
}
