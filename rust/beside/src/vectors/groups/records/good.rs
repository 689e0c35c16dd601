//! A good record of each kind: its largest flags, and in every field that it uses bytes that tell where they lie: 0xc0 + k at place k.

use super::super::bytes::{Fields, Record, record};
use crate::plain::Request;

const HEAD: u64 = 0xc3c2;
const PARAMS: u64 = 0xc5c4;
const LOCALS: u64 = 0xc7c6;
const SLOTS: u64 = 0xc9c8;
const RESULTS: u64 = 0xcbca;
const CALLER: u64 = 0xd7d6_d5d4_d3d2_d1d0;
const CALLEE: u64 = 0xdfde_dddc_dbda_d9d8;
const INSTANCE: u64 = 0xe7e6_e5e4_e3e2_e1e0;

const GOOD: [Fields; 9] = [
    [1, 3, HEAD, PARAMS, LOCALS, SLOTS, 0, CALLER, CALLEE, INSTANCE],
    [2, 2, 0, 0, 0, 0, 0, 0, 0, INSTANCE],
    [3, 2, HEAD, PARAMS, LOCALS, SLOTS, 0, 0, CALLEE, INSTANCE],
    [4, 1, HEAD, PARAMS, 0, 0, RESULTS, CALLER, 0, 0],
    [5, 2, HEAD, PARAMS, 0, 0, RESULTS, 0, 0, INSTANCE],
    [6, 0, 0, 0, 0, 0, 0, CALLER, 0, 0],
    [7, 0, 0, 0, 0, 0, 0, 0, 0, 0],
    [8, 0, 0, 0, 0, 0, 0, 0, 0, 0],
    [9, 0, HEAD, 0, 0, 0, 0, 0, CALLEE, 0],
];

/// What is no kind has a push's fields.
pub fn fields(kind: u64) -> Fields {
    let [_, rest @ ..] = GOOD[if (1..=9).contains(&kind) { kind as usize - 1 } else { 0 }];
    let [flags, head, params, locals, slots, results, caller, callee, instance] = rest;
    [kind, flags, head, params, locals, slots, results, caller, callee, instance]
}

pub fn good(kind: u64) -> Record {
    record(fields(kind))
}

/// The request that the record asks for.
pub fn asked_by(kind: u64) -> Request {
    let [kind, flags, head, params, locals, slots, results, caller, callee, instance] = fields(kind);
    Request {
        kind,
        head: head as u16,
        params: params as u16,
        locals: locals as u16,
        slots: slots as u16,
        results: results as u16,
        caller: (flags & 1 != 0 || kind == 6).then_some(caller),
        callee,
        instance: (flags & 2 != 0).then_some(instance),
    }
}
