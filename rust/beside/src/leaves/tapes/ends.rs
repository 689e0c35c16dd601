//! Ends behind each byte of the six records with each fuel: told again, with blocks behind them, and where the run stops before or at them.

use super::super::count::Compared;
use super::pair::Pair;
use super::six::Six;
use crate::rng::Rng;

pub fn compared() -> Compared {
    let six = Six::new();
    let places = 0..=six.trace.len();
    places.map(|place| ended(&six, place)).sum()
}

fn ended(six: &Six, place: usize) -> Compared {
    let (before, behind) = six.trace.split_at(place);
    let mut compared = 0;
    for fuelled in six.fuelled(place)? {
        let noise = (place % 2 == 1).then(|| Rng::new(place as u64));
        let mut pair = Pair::begun(&six.stack, &fuelled.run, noise);
        pair.answers(before, 0)?;
        pair.finish()?;
        pair.ends_as(&fuelled.whole)?;
        over(&mut pair, behind)?;
        pair.ends_as(&fuelled.whole)?;
        compared += pair.compared;
    }
    Ok(compared)
}

/// After an end nothing changes any more: 22 for what is no stop, and for a byte at least.
fn over(pair: &mut Pair, behind: &[u8]) -> Result<(), String> {
    let number = if pair.has_stopped() { 0 } else { 22 };
    pair.finish()?;
    pair.answers(&[], 0)?;
    pair.answers(behind, if behind.is_empty() { 0 } else { number })?;
    pair.finish()?;
    pair.answers(&[1], number)?;
    pair.answers(&[1; 80], number)
}
