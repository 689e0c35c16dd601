//! Records of 40 bytes: read and written by document 01's table.

use crate::plain::{Request, Straight};

pub const RECORD_BYTES: usize = 40;

/// What a kind uses: which flags it allows, which of the five counts, which of the three words.
struct Rule {
    flags: &'static [u8],
    /// head, params, locals, slots, results
    counts: [bool; 5],
    /// caller ip, callee ip, instance
    words: [bool; 3],
}

const NO: bool = false;
const YES: bool = true;

const RULES: [Rule; 9] = [
    Rule {
        flags: &[0, 1, 2, 3],
        counts: [YES, YES, YES, YES, NO],
        words: [YES, YES, YES],
    },
    Rule {
        flags: &[2],
        counts: [NO, NO, NO, NO, NO],
        words: [NO, NO, YES],
    },
    Rule {
        flags: &[0, 2],
        counts: [YES, YES, YES, YES, NO],
        words: [NO, YES, YES],
    },
    Rule {
        flags: &[0, 1],
        counts: [YES, YES, NO, NO, YES],
        words: [YES, NO, NO],
    },
    Rule {
        flags: &[2],
        counts: [YES, YES, NO, NO, YES],
        words: [NO, NO, YES],
    },
    Rule {
        flags: &[0],
        counts: [NO, NO, NO, NO, NO],
        words: [YES, NO, NO],
    },
    Rule {
        flags: &[0],
        counts: [NO, NO, NO, NO, NO],
        words: [NO, NO, NO],
    },
    Rule {
        flags: &[0],
        counts: [NO, NO, NO, NO, NO],
        words: [NO, NO, NO],
    },
    Rule {
        flags: &[0],
        counts: [YES, NO, NO, NO, NO],
        words: [NO, YES, NO],
    },
];

fn rule(kind: u64) -> Option<&'static Rule> {
    usize::try_from(kind.checked_sub(1)?).ok().and_then(|row| RULES.get(row))
}

/// A word that is used and whose flag exists for the kind: whether this record gives it.
fn flag_says(rule: &Rule, bit: u8, flags: u8) -> Option<bool> {
    let exists = rule.flags.iter().any(|allowed| allowed & bit != 0);
    exists.then_some(flags & bit != 0)
}

/// The request of the record at a place; nothing is 10.
pub fn read_record(bytes: &[u8], at: u64) -> Option<Request> {
    let at = usize::try_from(at).ok()?;
    let record = bytes.get(at..)?.get(..RECORD_BYTES)?;
    let count = |i: usize| u16::from_le_bytes([record[2 + 2 * i], record[3 + 2 * i]]);
    let word = |i: usize| u64::from_le_bytes(record[16 + 8 * i..24 + 8 * i].try_into().expect("eight bytes"));
    let (kind, flags) = (u64::from(record[0]), record[1]);
    let rule = rule(kind)?;
    let unused_count = (0..5).any(|i| !rule.counts[i] && count(i) != 0);
    let unused_word = (0..3).any(|i| !rule.words[i] && word(i) != 0);
    let not_given = |bit, i| flag_says(rule, bit, flags) == Some(false) && word(i) != 0;
    let padding = record[12..16].iter().any(|byte| *byte != 0);
    if !rule.flags.contains(&flags) || unused_count || unused_word || padding || not_given(1, 0) || not_given(2, 2) {
        return None;
    }
    let given = |bit, i: usize| (rule.words[i] && flag_says(rule, bit, flags) != Some(false)).then(|| word(i));
    Some(Request {
        kind,
        head: count(0),
        params: count(1),
        locals: count(2),
        slots: count(3),
        results: count(4),
        caller: given(1, 0),
        callee: word(1),
        instance: given(2, 2),
    })
}

/// Writes a request's record at a place, with 0 in all that its kind does not use: 0, or 10 and no byte changes.
pub fn write_record(bytes: &mut [u8], at: u64, q: &Request) -> u64 {
    put(bytes, at, rule(q.kind).map(|rule| record_of(rule, q)))
}

/// Writes the record that a struct spells, whatever its kind uses: 0; or 10, and no byte changes, where that record reads badly.
pub fn write_straight(bytes: &mut [u8], at: u64, q: &Straight) -> u64 {
    put(bytes, at, spelt(q).filter(|record| read_record(record, 0).is_some()))
}

fn put(bytes: &mut [u8], at: u64, record: Option<[u8; RECORD_BYTES]>) -> u64 {
    let room = usize::try_from(at)
        .ok()
        .and_then(|at| bytes.get_mut(at..))
        .and_then(|rest| rest.get_mut(..RECORD_BYTES));
    let (Some(record), Some(room)) = (record, room) else {
        return 10;
    };
    room.copy_from_slice(&record);
    0
}

/// Each number in its field, and a bit for each flag that is not 0. A kind that has no byte spells nothing.
fn spelt(q: &Straight) -> Option<[u8; RECORD_BYTES]> {
    let mut record = [0; RECORD_BYTES];
    record[0] = u8::try_from(q.kind).ok()?;
    record[1] = u8::from(q.caller_flag != 0) + 2 * u8::from(q.instance_flag != 0);
    for (i, count) in [q.head, q.params, q.locals, q.slots, q.results].iter().enumerate() {
        record[2 + 2 * i..4 + 2 * i].copy_from_slice(&count.to_le_bytes());
    }
    for (i, word) in [q.caller, q.callee, q.instance].iter().enumerate() {
        record[16 + 8 * i..24 + 8 * i].copy_from_slice(&word.to_le_bytes());
    }
    Some(record)
}

fn record_of(rule: &Rule, q: &Request) -> [u8; RECORD_BYTES] {
    let counts = [q.head, q.params, q.locals, q.slots, q.results];
    let words = [q.caller.unwrap_or(0), q.callee, q.instance.unwrap_or(0)];
    let caller = if flag_says(rule, 1, 0).is_some() && q.caller.is_some() {
        1
    } else {
        0
    };
    let always_given = rule.flags == [2];
    let instance = if flag_says(rule, 2, 0).is_some() && (always_given || q.instance.is_some()) {
        2
    } else {
        0
    };
    let mut record = [0; RECORD_BYTES];
    record[0] = q.kind as u8;
    record[1] = caller | instance;
    for (i, count) in counts.iter().enumerate().filter(|(i, _)| rule.counts[*i]) {
        record[2 + 2 * i..4 + 2 * i].copy_from_slice(&count.to_le_bytes());
    }
    put_words(&mut record, rule, words);
    record
}

fn put_words(record: &mut [u8; RECORD_BYTES], rule: &Rule, words: [u64; 3]) {
    for (i, word) in words.iter().enumerate().filter(|(i, _)| rule.words[*i]) {
        record[16 + 8 * i..24 + 8 * i].copy_from_slice(&word.to_le_bytes());
    }
}
