//! Records: each kind spelled byte by byte, read back, and refused where it breaks a rule; requests in plain form.
use crate::world::{P, Q, after};
use cattlecleat::{HostArgs, RECORD_BYTES, Refusal, ReplaceArgs, Request, ReturnHostArgs, Trace, raw, read_record, write_record};

const REPLACE: ReplaceArgs = ReplaceArgs {
    callee: 6,
    head: 1,
    params: 2,
    locals: 3,
    slots: 4,
    instance: None,
};

const HOST: HostArgs = HostArgs {
    caller: Some(0),
    head: 1,
    params: 2,
    results: 0x0305,
};

const RETURN_HOST: ReturnHostArgs = ReturnHostArgs {
    head: 1,
    params: 2,
    results: 5,
    instance: 7,
};

/// A request with kind and flags, the five counts and the three words of its record.
type Spelled = (Request, [u8; 2], [u16; 5], [u64; 3]);

/// Each kind, and some twice.
const SPELLED: [Spelled; 11] = [
    (Request::Push(P), [1, 2], [0, 0, 2, 4, 0], [0, 100, 1]),
    (Request::Push(Q), [1, 3], [2, 1, 2, 3, 0], [101, 200, 2]),
    (Request::Pop(u64::MAX), [2, 2], [0; 5], [0, 0, u64::MAX]),
    (Request::Replace(REPLACE), [3, 0], [1, 2, 3, 4, 0], [0, 6, 0]),
    (Request::Host(HOST), [4, 1], [1, 2, 0, 0, 0x0305], [0, 0, 0]),
    (Request::ReturnHost(RETURN_HOST), [5, 2], [1, 2, 0, 0, 5], [0, 0, 7]),
    (Request::Sync(1 << 40), [6, 0], [0; 5], [1 << 40, 0, 0]),
    (Request::Restore, [7, 0], [0; 5], [0; 3]),
    (Request::Reset, [8, 0], [0; 5], [0; 3]),
    (Request::Set(9, 10), [9, 0], [9, 0, 0, 0, 0], [0, 10, 0]),
    (Request::Set(0, 0), [9, 0], [0; 5], [0; 3]),
];

fn spelled(head: [u8; 2], counts: [u16; 5], words: [u64; 3]) -> Vec<u8> {
    [
        &head[..],
        &counts.map(u16::to_le_bytes).concat(),
        &[0; 4],
        &words.map(u64::to_le_bytes).concat(),
    ]
    .concat()
}

#[test]
fn each_kind_byte_by_byte() {
    for (request, head, counts, words) in SPELLED {
        let record = request.to_record();
        assert_eq!(record[..], spelled(head, counts, words), "{request:?}");
        assert_eq!(read_record(&record, 0), Ok(request));
        assert_eq!(Request::try_from(raw::Request::from(request)), Ok(request));
        assert_eq!(raw::read_record(&record, 0).request, raw::Request::from(request));
    }
}

/// The record with one byte changed.
fn with_byte(request: Request, at: usize) -> Vec<u8> {
    let mut record = request.to_record().to_vec();
    record[at] ^= 1;
    record
}

#[test]
fn the_four_bytes_between_are_zero() {
    for (request, ..) in SPELLED {
        let read = [12, 13, 14, 15].map(|at| read_record(&with_byte(request, at), 0));
        assert_eq!(read, [Err(Refusal::BadRecord); 4], "{request:?}");
    }
}

#[test]
fn kind_and_flags_are_in_the_table() {
    let bad = [
        [0, 0],
        [1, 4],
        [2, 0],
        [2, 3],
        [3, 1],
        [4, 2],
        [5, 0],
        [6, 1],
        [7, 2],
        [8, 1],
        [9, 2],
        [10, 0],
        [255, 255],
    ];
    for head in bad {
        assert_eq!(read_record(&spelled(head, [0; 5], [0; 3]), 0), Err(Refusal::BadRecord), "{head:?}");
    }
}

#[test]
fn what_a_kind_does_not_use_is_zero() {
    let bad = [
        spelled([1, 0], [0; 5], [0, 0, 1]),
        spelled([1, 0], [0, 0, 0, 0, 1], [0; 3]),
        spelled([4, 0], [0; 5], [1, 0, 0]),
        spelled([6, 0], [0; 5], [0, 1, 0]),
        spelled([7, 0], [1, 0, 0, 0, 0], [0; 3]),
        spelled([9, 0], [0, 1, 0, 0, 0], [0; 3]),
    ];
    for record in bad {
        assert_eq!(read_record(&record, 0), Err(Refusal::BadRecord), "{record:?}");
    }
}

/// What the bytes hold before a record is written.
const MARKED: u8 = 0xEE;

#[test]
fn a_record_needs_40_bytes() {
    let record = Request::Reset.to_record();
    let mut bytes = [MARKED; 100];
    assert_eq!(write_record(&mut bytes, 30, Request::Reset), Ok(()));
    assert_eq!(write_record(&mut bytes, 61, Request::Reset), Err(Refusal::BadRecord));
    assert_eq!(write_record(&mut bytes, usize::MAX, Request::Reset), Err(Refusal::BadRecord));
    assert_eq!(bytes.as_slice(), [&[MARKED; 30][..], &record, &[MARKED; 30]].concat());
    for at in [1, 39, 40, 41, usize::MAX] {
        assert_eq!(read_record(&record, at), Err(Refusal::BadRecord), "{at}");
    }
}

#[test]
fn a_walk_goes_on_after_a_bad_record_and_ends_with_a_short_one() {
    let bytes = [
        &Request::Sync(1).to_record()[..],
        &[MARKED; RECORD_BYTES],
        &Request::Reset.to_record(),
        &[7, 0],
    ]
    .concat();
    let mut trace = Trace::new(&bytes);
    assert_eq!((trace.len(), trace.position()), (4, 0));
    assert_eq!(trace.next(), Some(Ok(Request::Sync(1))));
    assert_eq!(trace.next(), Some(Err(Refusal::BadRecord)));
    assert_eq!(trace.next(), Some(Ok(Request::Reset)));
    assert_eq!((trace.len(), trace.position()), (1, 120));
    assert_eq!(trace.next(), Some(Err(Refusal::BadRecord)));
    assert_eq!((trace.next(), trace.len(), trace.position()), (None, 0, 122));
}

/// Each record as a struct, with each number changed in turn: written exactly where the record that it then spells reads well.
#[test]
fn a_struct_that_breaks_the_rules_is_not_written() {
    for (request, ..) in SPELLED {
        let good = raw::Request::from(request);
        for q in changed(good) {
            let mut bytes = [MARKED; RECORD_BYTES];
            let flags = u8::from(q.caller_flag != 0) + 2 * u8::from(q.instance_flag != 0);
            let counts = [q.head, q.params, q.locals, q.slots, q.results];
            let record = spelled([q.kind as u8, flags], counts, [q.caller, q.callee, q.instance]);
            let reads = read_record(&record, 0).is_ok();
            assert_eq!(raw::write_record(&mut bytes, 0, q), if reads { 0 } else { 10 }, "{q:?}");
            assert_eq!(bytes[..], if reads { record } else { vec![MARKED; RECORD_BYTES] }, "{q:?}");
        }
    }
}

/// The struct, and it with one number changed: a count or word by one bit, a flag to 0 and to 2.
fn changed(q: raw::Request) -> [raw::Request; 13] {
    let flags = |caller_flag, instance_flag| raw::Request {
        caller_flag,
        instance_flag,
        ..q
    };
    [
        q,
        flags(0, q.instance_flag),
        flags(2, q.instance_flag),
        flags(q.caller_flag, 0),
        flags(q.caller_flag, 2),
        raw::Request { head: q.head ^ 1, ..q },
        raw::Request { params: q.params ^ 1, ..q },
        raw::Request { locals: q.locals ^ 1, ..q },
        raw::Request { slots: q.slots ^ 1, ..q },
        raw::Request {
            results: q.results ^ 1,
            ..q
        },
        raw::Request { caller: q.caller ^ 1, ..q },
        raw::Request { callee: q.callee ^ 1, ..q },
        raw::Request {
            instance: q.instance ^ 1,
            ..q
        },
    ]
}

#[test]
fn a_request_of_no_kind_is_refused() {
    let mut stack = after(&[Request::Push(P)]);
    for kind in [0, 10, 257, u64::MAX] {
        let request = raw::Request {
            kind,
            ..raw::Request::default()
        };
        assert_eq!(Request::try_from(request), Err(Refusal::BadRecord));
        assert_eq!(stack.ask(request), Err(Refusal::BadRecord));
        assert_eq!(raw::write_record(&mut [0; 40], 0, request), 10);
    }
    assert_eq!(stack.depth(), 1);
}
