//! Records read and written: ours beside the plain reading of document 01's table.

use super::count::Compared;
use super::seat::Seat;
use crate::case::{Start, Step, Task};
use crate::plain::{KINDS, Request, State, Straight};
use crate::reading::{RECORD_BYTES, read_record, write_record};
use cattlecleat::raw;

type Record = [u8; RECORD_BYTES];

/// Where the fields lie that are not kind and flags: five counts, the four bytes that are always 0, three words.
const FIELDS: [(usize, usize); 9] = [(2, 2), (4, 2), (6, 2), (8, 2), (10, 2), (12, 4), (16, 8), (24, 8), (32, 8)];

/// Kinds that are none of the nine; the low byte of some is one.
const NO_KINDS: [u64; 8] = [0, 10, 255, 256, 257, 1 << 16 | 2, 1 << 32 | 3, u64::MAX];

pub fn compared() -> Compared {
    let mut seat = Seat::new(Start::Given {
        state: State::default(),
        words: Vec::new(),
        cells: Vec::new(),
    })?;
    let lawful: Vec<Record> = requests().iter().map(record).collect();
    lawful.iter().try_for_each(|record| around(&mut seat, record))?;
    bases(&lawful).into_iter().try_for_each(|base| pairs(&mut seat, base))?;
    writes(&mut seat, &lawful)?;
    spellings(&mut seat)?;
    Ok(seat.count.compared)
}

/// A lawful record, and what lies near it.
fn around(seat: &mut Seat, record: &Record) -> Result<(), String> {
    as_it_stands(seat, record)?;
    changes(seat, *record)?;
    places(seat, record)
}

/// Requests of every kind with every choice of what is given, each with numbers in all that it may use.
fn requests() -> Vec<Request> {
    let choices = [(None, None), (Some(11), None), (None, Some(1 << 63)), (Some(u64::MAX), Some(13))];
    let request = |kind, (caller, instance)| Request {
        kind,
        head: 0x0102,
        params: 0x0304,
        locals: 0x0506,
        slots: 0x0708,
        results: 0x090a,
        caller,
        callee: 0x1112_1314_1516_1718,
        instance,
    };
    (1..=KINDS.len() as u64)
        .flat_map(|kind| choices.map(|given| request(kind, given)))
        .collect()
}

fn record(request: &Request) -> Record {
    let mut record = [0; RECORD_BYTES];
    write_record(&mut record, 0, request);
    record
}

fn read(seat: &mut Seat, bytes: &[u8], at: u64) -> Result<(), String> {
    seat.glance(&Step::Trace(Task::Read(at), bytes.to_vec()))
}

/// Every other byte at every place; every single bit is among them.
fn changes(seat: &mut Seat, record: Record) -> Result<(), String> {
    for (place, byte) in (0..RECORD_BYTES).flat_map(|place| (0..=u8::MAX).map(move |byte| (place, byte))) {
        let mut changed = record;
        changed[place] = byte;
        read(seat, &changed, 0)?;
    }
    Ok(())
}

/// A record alone and cut short, or with others around it, read at every place and beyond the end.
fn places(seat: &mut Seat, record: &Record) -> Result<(), String> {
    let three = [*record; 3].concat();
    for length in 0..=three.len() {
        let near_end = (length as u64).saturating_sub(RECORD_BYTES as u64 + 1)..=length as u64 + 1;
        let last = u64::MAX - RECORD_BYTES as u64..=u64::MAX;
        for at in [0, 1, 40].into_iter().chain(near_end).chain(last) {
            read(seat, &three[..length], at)?;
        }
    }
    Ok(())
}

/// A lawful record is read, and every number of ours is the record's: what is not used is 0, and so is the number beside a flag of 0.
fn as_it_stands(seat: &mut Seat, record: &Record) -> Result<(), String> {
    let count = |i: usize| u16::from_le_bytes([record[2 + 2 * i], record[3 + 2 * i]]);
    let word = |i: usize| u64::from_le_bytes(std::array::from_fn(|byte| record[16 + 8 * i + byte]));
    let flag = |bit: u8| u64::from(record[1] & bit != 0);
    let request = raw::Request {
        kind: record[0].into(),
        head: count(0),
        params: count(1),
        locals: count(2),
        slots: count(3),
        results: count(4),
        caller_flag: flag(1),
        caller: word(0),
        callee: word(1),
        instance_flag: flag(2),
        instance: word(2),
    };
    let wanted = raw::Read { number: 0, request };
    seat.count.same(raw::read_record(record, 0), wanted, || format!("{record:?}"))?;
    seat.count
        .same(read_record(record, 0).is_some(), true, || format!("the reading of {record:?}"))
}

/// Zeros, one field alone not 0, all fields not 0, and each kind's own record with all that it may be given.
fn bases(lawful: &[Record]) -> Vec<Record> {
    let field = |(at, length): (usize, usize)| {
        let mut base = [0; RECORD_BYTES];
        base[at..at + length].fill(1);
        base
    };
    let full = lawful.iter().skip(3).step_by(4).copied();
    [[0; RECORD_BYTES], [u8::MAX; RECORD_BYTES]]
        .into_iter()
        .chain(FIELDS.map(field))
        .chain(full)
        .collect()
}

/// Every kind with every flags.
fn pairs(seat: &mut Seat, mut base: Record) -> Result<(), String> {
    for pair in 0..=u16::MAX {
        base[..2].copy_from_slice(&pair.to_le_bytes());
        read(seat, &base, 0)?;
    }
    Ok(())
}

/// Structs that spell these records, and some of no kind, into buffers of every length up to two records, at every place and beyond.
fn writes(seat: &mut Seat, lawful: &[Record]) -> Result<(), String> {
    let of_record = |record: &Record| read_record(record, 0).map(|q| Straight::as_read(&q));
    let spelt: Vec<Straight> = lawful.iter().filter_map(of_record).collect();
    let none = NO_KINDS.map(|kind| Straight { kind, ..spelt[3] });
    let all = [spelt, none.to_vec()].concat();
    let lengths = [
        0,
        1,
        RECORD_BYTES - 1,
        RECORD_BYTES,
        RECORD_BYTES + 1,
        2 * RECORD_BYTES,
        2 * RECORD_BYTES + 1,
    ];
    for (spelt, length) in all.iter().flat_map(|spelt| lengths.map(|length| (spelt, length))) {
        let last = u64::MAX - RECORD_BYTES as u64..=u64::MAX;
        for at in (0..=length as u64 + 1).chain(last) {
            seat.glance(&Step::Trace(Task::Write(at, *spelt), vec![0xa5; length]))?;
        }
    }
    Ok(())
}

/// Flags of a struct: none, and given in several ways, one of which has no bit among the lowest.
const FLAGS: [u64; 5] = [0, 1, 2, 1 << 32, u64::MAX];

/// Every kind, and some that are none, with every flag, and each choice of which of the five counts and three words are not 0.
fn spellings(seat: &mut Seat) -> Result<(), String> {
    for kind in (1..=KINDS.len() as u64).chain(NO_KINDS) {
        for (caller_flag, instance_flag) in FLAGS.into_iter().flat_map(|caller| FLAGS.map(|instance| (caller, instance))) {
            for choice in 0..=u8::MAX {
                let q = Straight {
                    kind,
                    caller_flag,
                    instance_flag,
                    ..chosen(choice)
                };
                seat.glance(&Step::Trace(Task::Write(0, q), vec![0xa5; RECORD_BYTES]))?;
            }
        }
    }
    Ok(())
}

/// A bit for each count and word that is not 0.
fn chosen(choice: u8) -> Straight {
    let bit = |i: u32| u16::from(choice >> i & 1);
    Straight {
        head: bit(0),
        params: bit(1) << 8,
        locals: bit(2),
        slots: bit(3) << 15,
        results: bit(4),
        caller: u64::from(bit(5)) << 63,
        callee: bit(6).into(),
        instance: u64::from(bit(7)) << 32,
        ..Straight::default()
    }
}
