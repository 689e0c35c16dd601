//! Traces in blocks (document 02, T-01): ours beside the reading after every block and every end, in every number, byte, word and cell; and at
//! the end beside the whole trace at once, by both.

mod by_hand;
mod cuts;
mod ends;
mod noise;
mod pair;
mod random;
mod six;

use super::count::Compared;

/// How many blocks and ends.
pub fn compared() -> Compared {
    let shares = [cuts::compared, ends::compared, by_hand::compared, random::compared];
    shares.into_iter().map(|share| share()).sum()
}
