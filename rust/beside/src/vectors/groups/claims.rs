//! What the words over a group claim, looked at while the group is made: so no group shows something else than it says.

use crate::case::FRAME_WORDS;
use crate::plain::{Answer, Request};
use crate::vectors::maker::{Made, Maker};
use std::fmt::{Debug, Display};

/// Fails unless what was found is what is claimed.
pub fn expect<T: PartialEq + Debug>(what: impl Display, found: T, claimed: T) -> Made<()> {
    if found == claimed {
        return Ok(());
    }
    Err(format!("{what}: {found:?}, not {claimed:?}"))
}

/// Asks, and expects the number.
pub fn asked(maker: &mut Maker, q: &Request, number: u64) -> Made<Answer> {
    let answer = maker.ask(q)?;
    expect(format!("{q:?} on {:?}", maker.state()), answer.number, number)?;
    Ok(answer)
}

/// Asks one after another, and hands back the last answer.
pub fn all_asked(maker: &mut Maker, asks: &[(Request, u64)]) -> Made<Answer> {
    asks.iter().try_fold(Answer::default(), |_, (q, number)| asked(maker, q, *number))
}

/// Says what follows, opens, and asks one after another.
pub fn group(maker: &mut Maker, words: &str, opening: [u64; 4], asks: &[(Request, u64)]) -> Made<Answer> {
    maker.says(words);
    opened(maker, opening)?;
    all_asked(maker, asks)
}

/// Opens where nothing refuses it.
pub fn opened(maker: &mut Maker, opening: [u64; 4]) -> Made<()> {
    expect(format!("opening with {opening:?}"), maker.open(opening)?, 0)
}

/// The ip, start, debt flag and debt of a frame.
pub fn row(maker: &Maker, index: usize) -> [u64; 4] {
    let words = maker.world().words;
    std::array::from_fn(|i| words[FRAME_WORDS as usize * index + i])
}
