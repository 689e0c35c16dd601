//! `align_relative_to`: ours beside the Rust and beside arithmetic that cannot wrap. Where document 01 gives 15 the Rust panics.

use super::count::{Compared, Count};
use crate::rng::Rng;
use cattlecleat::raw;
use oracle::leaves;

/// So many numbers from 0 on, and as many below the largest.
const NEAR: u64 = 64;
const RANDOM: u64 = 100_000;

pub fn compared() -> Compared {
    let mut count = Count::default();
    let mut rng = Rng::new(1);
    let near = || (0..NEAR).chain(u64::MAX - NEAR..=u64::MAX);
    let all_near = near().flat_map(|base| near().map(move |ip| (ip, base)));
    for (ip, base) in all_near.chain((0..RANDOM).map(|_| random(&mut rng))) {
        one(&mut count, ip, base)?;
    }
    Ok(count.compared)
}

/// Any two numbers, or two that lie near each other; mostly ip is not below base.
fn random(rng: &mut Rng) -> (u64, u64) {
    let (first, second) = (rng.next(), rng.next());
    let base = if rng.once_in(2) {
        first
    } else {
        second.saturating_sub(rng.below(100))
    };
    if rng.once_in(8) {
        (second, base)
    } else {
        (second.max(base), second.min(base))
    }
}

fn one(count: &mut Count, ip: u64, base: u64) -> Result<(), String> {
    let answered = |address: Option<u64>| raw::Aligned {
        number: if address.is_some() { 0 } else { 15 },
        address: address.unwrap_or(0),
    };
    let ours = raw::align(ip, base);
    count.same(ours, answered(leaves::align(ip, base)), || {
        format!("ip {ip}, base {base}, ours and the Rust")
    })?;
    count.same(ours, answered(aligned(ip, base)), || {
        format!("ip {ip}, base {base}, ours and arithmetic")
    })
}

/// Base plus the distance rounded up to a multiple of 8; nothing below base or above the largest u64.
fn aligned(ip: u64, base: u64) -> Option<u64> {
    let distance = u128::from(ip.checked_sub(base)?);
    u64::try_from(u128::from(base) + distance.div_ceil(8) * 8).ok()
}
