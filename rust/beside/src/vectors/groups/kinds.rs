//! Requests by their own numbers, for the tables of the groups.

use crate::example::NOTHING;
use crate::plain::Request;

/// The largest count.
pub const MOST: u16 = u16::MAX;

/// The highest of 64 bits: as floats this and 0 are alike, as instances they are two.
pub const HIGH_BIT: u64 = 1 << 63;

/// The caller ip of most pushes and hosts.
pub const IP: Option<u64> = Some(101);

pub const RESTORE: Request = Request { kind: 7, ..NOTHING };
pub const RESET: Request = Request { kind: 8, ..NOTHING };

/// A push that names no instance.
pub const fn push(caller: Option<u64>, [head, params, locals, slots]: [u16; 4]) -> Request {
    Request {
        kind: 1,
        head,
        params,
        locals,
        slots,
        caller,
        callee: 400,
        ..NOTHING
    }
}

/// A replace that names no instance.
pub const fn replace([head, params, locals, slots]: [u16; 4]) -> Request {
    Request {
        kind: 3,
        callee: 500,
        ..push(None, [head, params, locals, slots])
    }
}

/// The same push or replace with an instance, or with none.
pub const fn naming(instance: Option<u64>, q: Request) -> Request {
    Request { instance, ..q }
}

/// The same push or replace of another callee.
pub const fn calling(callee: u64, q: Request) -> Request {
    Request { callee, ..q }
}

/// A pop that gives an instance.
pub const fn pop(instance: u64) -> Request {
    Request {
        kind: 2,
        instance: Some(instance),
        ..NOTHING
    }
}

pub const fn host(caller: Option<u64>, [head, params, results]: [u16; 3]) -> Request {
    Request {
        kind: 4,
        head,
        params,
        results,
        caller,
        ..NOTHING
    }
}

/// A return-host that gives instance 5.
pub const fn return_host([head, params, results]: [u16; 3]) -> Request {
    Request {
        kind: 5,
        head,
        params,
        results,
        instance: Some(5),
        ..NOTHING
    }
}

pub const fn sync(ip: u64) -> Request {
    Request {
        kind: 6,
        caller: Some(ip),
        ..NOTHING
    }
}

pub const fn set(head: u16, cell: u64) -> Request {
    Request {
        kind: 9,
        head,
        callee: cell,
        ..NOTHING
    }
}
