//! Searches small worlds, sound and broken, for entries that show a mutation of a refusal list which no entry has shown before.

use super::ledger::Mutation;
use super::lists::list;
use super::maker::{Made, Maker};
use super::moves::Move;
use super::small::candidate;
use super::verdict::{named, open_ends};
use crate::reading::Reading;
use crate::rng::Rng;

const ABOUT: &str =
    "Worlds, sound and broken, in which the answer is another if a refusal list is changed: above each, a change that it shows first.";

const SEED: u64 = 8;

/// How many mutations an entry must show for the first time, and how many worlds are looked at: the best first, so that few are needed.
const PASSES: [(usize, usize); 5] = [(40, 4_000), (16, 8_000), (8, 12_000), (4, 16_000), (2, 24_000)];

/// The last pass ends when all is shown, or after so many worlds.
const MOST: usize = 2_000_000;

/// The buffers are refilled before so many entries; any small lengths can be lent of them.
const TOGETHER: usize = 25;
const OPENING: [u64; 4] = [800, 64, 256, 64];

struct Search {
    rng: Rng,
    entered: usize,
}

pub fn make(maker: &mut Maker) -> Made<()> {
    maker.series("lists", ABOUT);
    let mut search = Search {
        rng: Rng::new(SEED),
        entered: 0,
    };
    PASSES.iter().try_for_each(|(least, worlds)| search.pass(maker, *least, *worlds))?;
    search.last_pass(maker)
}

impl Search {
    fn pass(&mut self, maker: &mut Maker, least: usize, worlds: usize) -> Made<()> {
        for _ in 0..worlds {
            self.look(maker, least)?;
        }
        Ok(())
    }

    /// Until nothing is left to show.
    fn last_pass(&mut self, maker: &mut Maker) -> Made<()> {
        let mut left = open_ends(&maker.ledger).len();
        for _ in 0..MOST {
            if left == 0 {
                break;
            }
            if self.look(maker, 1)? {
                left = open_ends(&maker.ledger).len();
            }
        }
        Ok(())
    }

    /// Looks at one world, and enters it where it shows so many mutations.
    fn look(&mut self, maker: &mut Maker, least: usize) -> Made<bool> {
        let (world, asked) = candidate(&mut self.rng, maker.words());
        let shown = maker.ledger.new_kills(&list(&world, &asked));
        let shows = shown.len() >= least;
        if shows {
            self.enter(maker, &shown, &world, &asked)?;
        }
        Ok(shows)
    }

    /// Puts the world in the place of the one there is, and asks.
    fn enter(&mut self, maker: &mut Maker, shown: &[Mutation], world: &Reading, asked: &Move) -> Made<()> {
        if self.entered.is_multiple_of(TOGETHER) {
            maker.anew("buffers as an opening finds them");
            maker.open(OPENING)?;
        }
        self.entered += 1;
        maker.says(&said(shown));
        for (i, word) in world.words.iter().enumerate() {
            if maker.words()[i] != *word {
                maker.give_word(i, *word);
            }
        }
        maker.give(world.state, world.words.len(), world.cells.len());
        maker.asked(asked).map(|_| ())
    }
}

/// The first mutation, and how many more.
fn said(shown: &[Mutation]) -> String {
    match shown {
        [] => String::new(),
        [one] => named(one),
        [first, more @ ..] => format!("{}, and {} more", named(first), more.len()),
    }
}
