//! The records that are replayed, as their numbers lie in document 01: kind, flags, head, params, locals, slots, results, caller ip, callee
//! ip or cell, instance.

use super::super::bytes::Fields;

pub const RESET: Fields = [8, 0, 0, 0, 0, 0, 0, 0, 0, 0];
pub const BAD: Fields = [0; 10];

/// A first push of cost 4.
pub const PUSH: Fields = [1, 0, 0, 0, 3, 4, 0, 0, 100, 0];

/// Beside a record what it is answered, its offset, and what it costs.
pub type Costing = (Fields, u64, u64, u64);

/// What a group says, and its records.
pub type Group = (&'static str, &'static [Costing]);

/// The first record that is accepted.
pub const FIRST: Fields = [1, 2, 0, 1, 3, 4, 0, 0, 100, 1];

/// Every kind accepted, one after another from an opened stack.
pub const ACCEPTED: &[Group] = &[
    (
        "accepted: push 3, set 1, push 3, sync 1, set 1",
        &[
            (FIRST, 0, 0, 3),
            ([9, 0, 1, 0, 0, 0, 0, 0, 55, 0], 0, 1, 1),
            ([1, 3, 1, 1, 3, 4, 0, 101, 200, 2], 0, 1, 3),
            ([6, 0, 0, 0, 0, 0, 0, 210, 0, 0], 0, 1, 1),
            ([9, 0, 2, 0, 0, 0, 0, 0, 66, 0], 0, 3, 1),
        ],
    ),
    (
        "accepted: replace 4, host 1, restore 1, push 1, pop 1",
        &[
            ([3, 2, 2, 2, 3, 5, 0, 0, 250, 3], 0, 1, 4),
            ([4, 1, 3, 2, 0, 0, 3, 251, 0, 0], 0, 1, 1),
            ([7, 0, 0, 0, 0, 0, 0, 0, 0, 0], 0, 1, 1),
            ([1, 1, 2, 0, 0, 2, 0, 252, 150, 0], 0, 3, 1),
            ([2, 2, 0, 0, 0, 0, 0, 0, 0, 9], 0, 1, 1),
        ],
    ),
    (
        "accepted: return-host 4, pop of the last frame 1, push 2, return-host of the last frame 3, reset 1",
        &[
            ([5, 2, 1, 3, 0, 0, 2, 0, 0, 2], 0, 0, 4),
            ([2, 2, 0, 0, 0, 0, 0, 0, 0, 1], 1, 0, 1),
            ([1, 0, 2, 0, 1, 3, 0, 0, 160, 0], 0, 2, 2),
            ([5, 2, 1, 2, 0, 0, 3, 0, 0, 1], 1, 0, 3),
            (RESET, 0, 0, 1),
        ],
    ),
];

/// Every kind but reset refused, with three accepted pushes among them.
pub const REFUSED: &[Group] = &[
    (
        "refused with 4, without a frame: push, pop, replace, host, return-host, sync, restore and set cost 1 each",
        &[
            ([1, 1, 0, 0, 3, 4, 0, 101, 100, 0], 4, 0, 1),
            ([2, 2, 0, 0, 0, 0, 0, 0, 0, 1], 4, 0, 1),
            ([3, 0, 0, 2, 3, 4, 0, 0, 110, 0], 4, 0, 1),
            ([4, 1, 0, 2, 0, 0, 1, 101, 0, 0], 4, 0, 1),
            ([5, 2, 0, 2, 0, 0, 1, 0, 0, 1], 4, 0, 1),
            ([6, 0, 0, 0, 0, 0, 0, 120, 0, 0], 4, 0, 1),
            ([7, 0, 0, 0, 0, 0, 0, 0, 0, 0], 4, 0, 1),
            ([9, 0, 0, 0, 0, 0, 0, 0, 77, 0], 4, 0, 1),
        ],
    ),
    (
        "refused: host with 2 and with 3, 1 each",
        &[
            ([4, 0, 13, 0, 0, 0, 0, 0, 0, 0], 2, 0, 1),
            ([4, 0, 9, 2, 0, 0, 1, 0, 0, 0], 3, 0, 1),
        ],
    ),
    (
        "a push is done, 4; then restore is refused with 8, push with 6, 5, 3 and 2, 1 each",
        &[
            (PUSH, 0, 0, 4),
            ([7, 0, 0, 0, 0, 0, 0, 0, 0, 0], 8, 0, 1),
            ([1, 0, 0, 0, 3, 4, 0, 0, 200, 0], 6, 0, 1),
            ([1, 1, 0, 0, 9, 4, 0, 101, 200, 0], 5, 0, 1),
            ([1, 1, 0, 0, 5, 11, 0, 101, 200, 0], 3, 0, 1),
            ([1, 1, 0, 0, 5, 13, 0, 101, 200, 0], 2, 0, 1),
        ],
    ),
    (
        "refused: replace with 5 and 7, return-host with 7 and 2, set with 7, a bad record with 10, 1 each",
        &[
            ([3, 2, 0, 3, 2, 4, 0, 0, 110, 1], 5, 0, 1),
            ([3, 2, 3, 2, 3, 4, 0, 0, 110, 1], 7, 0, 1),
            ([5, 2, 0, 5, 0, 0, 1, 0, 0, 1], 7, 0, 1),
            ([5, 2, 0, 4, 0, 0, 13, 0, 0, 1], 2, 0, 1),
            ([9, 0, 4, 0, 0, 0, 0, 0, 77, 0], 7, 0, 1),
            (BAD, 10, 0, 1),
        ],
    ),
    (
        "two pushes are done, 1 each; with as many frames as D one more is refused with 2",
        &[
            ([1, 1, 1, 0, 0, 1, 0, 101, 200, 0], 0, 1, 1),
            ([1, 1, 1, 0, 0, 1, 0, 201, 210, 0], 0, 2, 1),
            ([1, 1, 1, 0, 1, 1, 0, 211, 220, 0], 2, 0, 1),
        ],
    ),
];

/// For a stack with the first accepted push on it: a name, the record, and what it costs.
pub const ONE_FRAME: [(&str, Fields, u64); 8] = [
    ("push", [1, 3, 1, 0, 3, 4, 0, 101, 200, 2], 4),
    ("replace", [3, 2, 1, 2, 4, 5, 0, 0, 250, 3], 5),
    ("return-host of the last frame", [5, 2, 1, 2, 0, 0, 5, 0, 0, 1], 3),
    ("sync", [6, 0, 0, 0, 0, 0, 0, 120, 0, 0], 1),
    ("set", [9, 0, 3, 0, 0, 0, 0, 0, 77, 0], 1),
    ("host", [4, 1, 3, 0, 0, 0, 2, 121, 0, 0], 1),
    ("refused push", [1, 2, 1, 0, 3, 4, 0, 0, 200, 2], 1),
    ("bad record", BAD, 1),
];

/// A trace of eight records, one of them bad and one refused.
pub const MIXED: [Fields; 8] = [
    [1, 2, 0, 1, 3, 4, 0, 0, 100, 1],
    [9, 0, 1, 0, 0, 0, 0, 0, 55, 0],
    [1, 3, 1, 1, 3, 4, 0, 101, 200, 2],
    BAD,
    [3, 2, 0, 2, 3, 5, 0, 0, 250, 3],
    [1, 2, 0, 0, 3, 4, 0, 0, 200, 4],
    [5, 2, 1, 3, 0, 0, 6, 0, 0, 2],
    [2, 2, 0, 0, 0, 0, 0, 0, 0, 1],
];

/// Document 01's example.
pub const EXAMPLE: [Fields; 5] = [
    [1, 2, 0, 0, 2, 4, 0, 0, 100, 1],
    [1, 3, 2, 1, 2, 3, 0, 101, 200, 2],
    [2, 2, 0, 0, 0, 0, 0, 0, 0, 2],
    [2, 2, 0, 0, 0, 0, 0, 0, 0, 2],
    [2, 2, 0, 0, 0, 0, 0, 0, 0, 2],
];
