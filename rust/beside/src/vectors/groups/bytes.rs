//! Records by their own bytes, as document 01 lays them out.

use crate::reading::RECORD_BYTES;

pub type Record = [u8; RECORD_BYTES];

/// Kind, flags, the five counts (head, params, locals, slots, results), the three words (caller ip, callee ip or cell, instance).
pub type Fields = [u64; 10];

/// Where each field begins, and how many bytes it has, the least first.
const LAYOUT: [(usize, usize); 10] = [(0, 1), (1, 1), (2, 2), (4, 2), (6, 2), (8, 2), (10, 2), (16, 8), (24, 8), (32, 8)];

pub fn record(fields: Fields) -> Record {
    let mut record = [0; RECORD_BYTES];
    for ((at, width), field) in LAYOUT.iter().zip(fields) {
        record[*at..at + width].copy_from_slice(&field.to_le_bytes()[..*width]);
    }
    record
}
