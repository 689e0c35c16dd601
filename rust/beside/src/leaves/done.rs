//! The done slot: every sequence of four calls on it, ours beside the Rust, which panics where document 01 gives 12 and 13.

use super::count::{Compared, Count};
use cattlecleat::raw;
use oracle::leaves::{DoneSlot, Reason};

const CALLS: u32 = 4;

/// A reason to fill the slot with; none is a take.
const ALPHABET: [Option<Reason>; 9] = [
    None,
    Some(Reason::Returned(0)),
    Some(Reason::Returned(1)),
    Some(Reason::Returned(u64::MAX)),
    Some(Reason::HostError),
    Some(Reason::OutOfFuel(0)),
    Some(Reason::OutOfFuel(1)),
    Some(Reason::OutOfFuel(u64::MAX)),
    Some(Reason::Error),
];

pub fn compared() -> Compared {
    let mut count = Count::default();
    for code in 0..ALPHABET.len().pow(CALLS) {
        let letter = |place| ALPHABET[code / ALPHABET.len().pow(place) % ALPHABET.len()];
        sequence(&mut count, &(0..CALLS).map(letter).collect::<Vec<_>>())?;
    }
    any_slots(&mut count)?;
    Ok(count.compared)
}

/// Calls one after another from an empty slot. The Rust's own slot is seen by what it hands out; in the middle column stands the plain one.
fn sequence(count: &mut Count, calls: &[Option<Reason>]) -> Result<(), String> {
    let (mut ours, mut rust, mut plain) = (raw::Reason::default(), DoneSlot::default(), None);
    for call in calls {
        let (found, of_rust, wanted) = match *call {
            Some(reason) => (
                raw::done_with(ours, raw_reason(Some(reason))),
                if rust.done_with(reason) { (0, None) } else { (12, None) },
                filled(&mut plain, reason),
            ),
            None => (
                raw::take_done_reason(ours),
                rust.take_done_reason().map_or((13, None), |reason| (0, Some(reason))),
                taken(&mut plain),
            ),
        };
        let what = |who: &str| format!("{call:?} in {calls:?}, {who}");
        count.same(of_rust, wanted, || what("the Rust"))?;
        count.same(found, answer(wanted, plain), || what("ours"))?;
        ours = found.slot;
    }
    Ok(())
}

fn filled(slot: &mut Option<Reason>, reason: Reason) -> (u64, Option<Reason>) {
    if slot.is_some() {
        return (12, None);
    }
    *slot = Some(reason);
    (0, None)
}

fn taken(slot: &mut Option<Reason>) -> (u64, Option<Reason>) {
    let reason = slot.take();
    (if reason.is_some() { 0 } else { 13 }, reason)
}

fn answer((number, reason): (u64, Option<Reason>), slot: Option<Reason>) -> raw::Done {
    raw::Done {
        number,
        reason: raw_reason(reason),
        slot: raw_reason(slot),
    }
}

fn raw_reason(reason: Option<Reason>) -> raw::Reason {
    let (kind, amount) = match reason {
        None => (0, 0),
        Some(Reason::Returned(offset)) => (1, offset),
        Some(Reason::HostError) => (2, 0),
        Some(Reason::OutOfFuel(amount)) => (3, amount),
        Some(Reason::Error) => (4, 0),
    };
    raw::Reason { kind, amount }
}

/// Slots and reasons as a host may give them: any kind, with an amount beside those that have none.
fn any_slots(count: &mut Count) -> Result<(), String> {
    let given = [0, 1, 2, 3, 4, 5, 1 << 32, u64::MAX].map(|kind| [0, 1, u64::MAX].map(|amount| raw::Reason { kind, amount }));
    let given = given.as_flattened();
    for (slot, reason) in given.iter().flat_map(|slot| given.iter().map(move |reason| (*slot, *reason))) {
        let plain = Some(slot).filter(|slot| slot.kind != 0).map(plain_reason);
        let mut after = plain;
        let wanted = refused_as(slot, answer(filled(&mut after, plain_reason(reason)), after));
        count.same(raw::done_with(slot, reason), wanted, || format!("{reason:?} into {slot:?}"))?;
        let mut after = plain;
        let wanted = refused_as(slot, answer(taken(&mut after), after));
        count.same(raw::take_done_reason(slot), wanted, || format!("out of {slot:?}"))?;
    }
    Ok(())
}

/// A refusal hands the slot back as it came.
fn refused_as(came: raw::Reason, wanted: raw::Done) -> raw::Done {
    match wanted.number {
        0 => wanted,
        _ => raw::Done { slot: came, ..wanted },
    }
}

/// What is none of the first three is an error.
fn plain_reason(reason: raw::Reason) -> Reason {
    match reason.kind {
        1 => Reason::Returned(reason.amount),
        2 => Reason::HostError,
        3 => Reason::OutOfFuel(reason.amount),
        _ => Reason::Error,
    }
}
