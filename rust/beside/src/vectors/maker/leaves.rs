//! Lines on the trace's bytes, conversions, alignment and the done slot. Of the last three what is expected is the Rust's.

use super::{Made, Maker};
use crate::plain::{Request, Straight};
use crate::reading::{read_record, write_straight};
use crate::vectors::call::Call;
use crate::vectors::text::{Token, numbers};
use oracle::leaves::{self, DoneSlot, Reason};

/// How many bytes of the trace are told after a write.
const TOLD_BYTES: usize = 48;

impl Maker {
    /// The record at a place of the trace's first bytes, read.
    pub fn read(&mut self, length: usize, at: u64) -> Made<Option<Request>> {
        let read = read_record(&self.trace[..length], at);
        let number = if read.is_some() { 0 } else { 10 };
        let request = read.as_ref().map(Straight::as_read).unwrap_or_default();
        let answer = [numbers(&[number]), request.with_kind()].concat();
        self.tell_answer(&Call::Read(length, at), answer, self.trace.clone())?;
        Ok(read)
    }

    /// A request's record, written at a place of the trace's first bytes.
    pub fn write(&mut self, length: usize, at: u64, q: &Request) -> Made<u64> {
        self.write_straight(length, at, &Straight::as_read(q))
    }

    /// The record that a struct spells; 10 where it breaks the rules of its kind.
    pub fn write_straight(&mut self, length: usize, at: u64, q: &Straight) -> Made<u64> {
        let mut trace = self.trace.clone();
        let number = write_straight(&mut trace[..length], at, q);
        let answer = [numbers(&[number]), Token::bytes(&trace[..TOLD_BYTES])].concat();
        self.tell_answer(&Call::Write(length, at, *q), answer, trace)?;
        Ok(number)
    }

    /// The register of a number, by its type. It is told twice: the program asks the face, and the type's own function.
    #[allow(clippy::wrong_self_convention, reason = "the word of its line")]
    pub fn into_register(&mut self, kind: u64, number: u64) -> Made<u64> {
        let register = leaves::to_register(kind, number);
        self.tell_leaf(&Call::Into(kind, number), numbers(&[register, register]))?;
        Ok(register)
    }

    /// The number of a register, by its type; told twice as well.
    #[allow(clippy::wrong_self_convention, reason = "the word of its line")]
    pub fn from_register(&mut self, kind: u64, register: u64) -> Made<u64> {
        let number = leaves::from_register(kind, register);
        self.tell_leaf(&Call::From(kind, register), numbers(&[number, number]))?;
        Ok(number)
    }

    /// The aligned address; none is 15.
    pub fn align(&mut self, ip: u64, base: u64) -> Made<Option<u64>> {
        let address = leaves::align(ip, base);
        let number = if address.is_some() { 0 } else { 15 };
        self.tell_leaf(&Call::Align(ip, base), numbers(&[number, address.unwrap_or(0)]))?;
        Ok(address)
    }

    /// A slot filled with a reason: 0, or 12 and the slot is the one that came.
    pub fn fill(&mut self, slot: [u64; 2], reason: [u64; 2]) -> Made<u64> {
        let mut rust = rust_slot(slot);
        let filled = rust.done_with(rust_reason(reason));
        let (number, after) = if filled { (0, taken(&mut rust)) } else { (12, slot) };
        self.tell_leaf(&Call::Fill(slot, reason), done_tokens(number, [0, 0], after))?;
        Ok(number)
    }

    /// A reason taken out of a slot: 0, or 13 and the slot is the one that came.
    pub fn take(&mut self, slot: [u64; 2]) -> Made<u64> {
        let mut rust = rust_slot(slot);
        let (number, reason, after) = match rust.take_done_reason() {
            Some(reason) => (0, plain_reason(reason), taken(&mut rust)),
            None => (13, [0, 0], slot),
        };
        self.tell_leaf(&Call::Take(slot), done_tokens(number, reason, after))?;
        Ok(number)
    }

    fn tell_leaf(&mut self, call: &Call, answer: Vec<Token>) -> Made<()> {
        self.tell_answer(call, answer, self.trace.clone())
    }
}

fn done_tokens(number: u64, reason: [u64; 2], slot: [u64; 2]) -> Vec<Token> {
    vec![Token::Number(number), Token::pair(reason), Token::pair(slot)]
}

/// A slot of kind 0 is empty.
fn rust_slot(slot: [u64; 2]) -> DoneSlot {
    let mut rust = DoneSlot::default();
    if slot[0] != 0 {
        rust.done_with(rust_reason(slot));
    }
    rust
}

/// What is none of the first three is an error.
fn rust_reason([kind, amount]: [u64; 2]) -> Reason {
    match kind {
        1 => Reason::Returned(amount),
        2 => Reason::HostError,
        3 => Reason::OutOfFuel(amount),
        _ => Reason::Error,
    }
}

fn plain_reason(reason: Reason) -> [u64; 2] {
    match reason {
        Reason::Returned(offset) => [1, offset],
        Reason::HostError => [2, 0],
        Reason::OutOfFuel(amount) => [3, amount],
        Reason::Error => [4, 0],
    }
}

/// What the slot holds; two zeros where it is empty.
fn taken(slot: &mut DoneSlot) -> [u64; 2] {
    slot.take_done_reason().map_or([0, 0], plain_reason)
}
