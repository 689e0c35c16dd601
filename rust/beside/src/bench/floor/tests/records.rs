//! Records one by one: every bit turned around, every kind with every flags, every length. One that reads badly changes nothing.

use super::replay_both;
use crate::example::{NOTHING, P, Q};
use crate::plain::{Replay, Request};
use crate::reading::{RECORD_BYTES, Reading, write_record};

const RUN: Replay = Replay {
    number: 3,
    fuel: 1_000,
    spent: 5,
    stopped: None,
};

/// Two frames, and room for more.
fn stack() -> Reading {
    let (_, mut stack) = Reading::open(8 * 40, 9, vec![7; 36], vec![8; 40]);
    for q in [P, Q] {
        assert_eq!(stack.ask(&q).number, 0);
    }
    stack
}

/// Each kind with all that it may have, accepted on that stack; and what may be left out left out.
fn requests() -> [Request; 12] {
    let of = |kind, caller, instance| Request {
        kind,
        caller,
        instance,
        ..NOTHING
    };
    let (ip, instance) = (Some(3), Some(4));
    let replace = Request {
        kind: 3,
        caller: None,
        ..Q
    };
    let host = Request {
        params: 1,
        results: 2,
        ..of(4, ip, None)
    };
    [
        Q,
        Request { instance: None, ..Q },
        of(2, None, instance),
        replace,
        Request { instance: None, ..replace },
        host,
        Request { caller: None, ..host },
        Request {
            head: 1,
            kind: 5,
            caller: None,
            instance,
            ..host
        },
        of(6, ip, None),
        of(7, None, None),
        of(8, None, None),
        Request {
            head: 2,
            callee: 6,
            ..of(9, None, None)
        },
    ]
}

fn record(q: &Request) -> [u8; RECORD_BYTES] {
    let mut record = [0; RECORD_BYTES];
    assert_eq!(write_record(&mut record, 0, q), 0);
    record
}

#[test]
fn every_bit_of_a_record() {
    for q in requests() {
        assert!(stack().ask(&q).accepted(), "{q:?}");
        for bit in 0..8 * RECORD_BYTES {
            let mut turned = record(&q);
            turned[bit / 8] ^= 1 << (bit % 8);
            replay_both(&mut stack(), RUN, &turned, bit as u64);
        }
    }
}

#[test]
fn every_kind_with_every_flags() {
    for kind_and_flags in 0..=u16::MAX {
        let mut record = [0; RECORD_BYTES];
        record[..2].copy_from_slice(&kind_and_flags.to_le_bytes());
        replay_both(&mut stack(), RUN, &record, u64::from(kind_and_flags));
    }
}

/// All of them in a row, cut off anywhere, and with any fuel up to what they cost.
#[test]
fn every_length_and_every_fuel() {
    let trace: Vec<u8> = requests().iter().flat_map(record).collect();
    for length in 0..=trace.len() {
        replay_both(&mut stack(), RUN, &trace[..length], length as u64);
    }
    for fuel in 0..40 {
        replay_both(&mut stack(), Replay { fuel, ..RUN }, &trace, fuel);
    }
}
