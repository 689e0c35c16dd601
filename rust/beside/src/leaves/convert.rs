//! Conversions to and from the integer register: ours beside the Rust's own `From`s and beside plain arithmetic.

use super::count::{Compared, Count};
use crate::rng::Rng;
use cattlecleat::raw;
use oracle::leaves;

/// u8 to u64, i8 to i64, bool; what is none of them is taken as u64, so u64 stands in for it with the Rust.
const TYPES: [u64; 12] = [1, 2, 3, 4, 5, 6, 7, 8, 9, 0, 10, u64::MAX];
const U64: u64 = 4;
const BOOL: u64 = 9;

/// What stands above the low 16 bits: nothing, everything, and single bits beside the ends of the types.
const HIGHS: [u64; 6] = [0, !0xffff, 1 << 16, 1 << 31, 1 << 32, 1 << 63];
const RANDOM: u64 = 200_000;

pub fn compared() -> Compared {
    let mut count = Count::default();
    let mut rng = Rng::new(1);
    let low = (0..1 << 16).flat_map(|low: u64| HIGHS.map(|high| high | low));
    let random = (0..RANDOM).map(|_| rng.next());
    for number in low.chain(ends()).chain(random) {
        both_ways(&mut count, number)?;
    }
    Ok(count.compared)
}

/// Powers of two, their neighbours, and all of them negated: the ends of every type are among them.
fn ends() -> impl Iterator<Item = u64> {
    let powers = (0..64).flat_map(|bit| [-1_i64, 0, 1].map(|beside| (1_u64 << bit).wrapping_add_signed(beside)));
    powers.flat_map(|number| [number, number.wrapping_neg()])
}

/// The number to a register, and as a register back, by every type.
fn both_ways(count: &mut Count, number: u64) -> Result<(), String> {
    for kind in TYPES {
        let of_rust = if (1..=BOOL).contains(&kind) { kind } else { U64 };
        let (to, from) = (raw::to_register(kind, number), raw::from_register(kind, number));
        let rust = (leaves::to_register(of_rust, number), leaves::from_register(of_rust, number));
        count.same((to, from), rust, || format!("type {kind}, {number} to and from, ours and the Rust"))?;
        let plain = (register_of(kind, number), number_of(kind, number));
        count.same((to, from), plain, || {
            format!("type {kind}, {number} to and from, ours and arithmetic")
        })?;
    }
    Ok(())
}

/// How many bits a type has, and whether it is signed.
fn width(kind: u64) -> (u32, bool) {
    match kind {
        1..=4 => (4 << kind, false),
        5..=8 => (4 << (kind - 4), true),
        _ => (64, false),
    }
}

/// The low bits as a number that is not negative.
fn low_bits(number: u64, bits: u32) -> i128 {
    i128::from(number) % (1 << bits)
}

fn register_of(kind: u64, number: u64) -> u64 {
    if kind == BOOL {
        return u64::from(number != 0);
    }
    low_bits(number, width(kind).0) as u64
}

/// The low bits; from half of their range on, a signed type is below 0 by what is missing to the whole.
fn number_of(kind: u64, register: u64) -> u64 {
    if kind == BOOL {
        return u64::from(register != 0);
    }
    let (bits, signed) = width(kind);
    let low = low_bits(register, bits);
    let below = if signed && low >= 1 << (bits - 1) { 1 << bits } else { 0 };
    (low - below) as u64
}
