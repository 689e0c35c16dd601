//! The two pushes of document 01's example, which its cases at the edges name P and Q.

use crate::plain::Request;

/// What a request does not use.
pub const NOTHING: Request = Request {
    kind: 0,
    head: 0,
    params: 0,
    locals: 0,
    slots: 0,
    results: 0,
    caller: None,
    callee: 0,
    instance: None,
};

/// The first push.
pub const P: Request = Request {
    kind: 1,
    locals: 2,
    slots: 4,
    callee: 100,
    instance: Some(1),
    ..NOTHING
};

/// The second push.
pub const Q: Request = Request {
    kind: 1,
    head: 2,
    params: 1,
    locals: 2,
    slots: 3,
    caller: Some(101),
    callee: 200,
    instance: Some(2),
    ..NOTHING
};
