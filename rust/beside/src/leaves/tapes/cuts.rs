//! Whatever the cuts: every two places of the six records with each fuel, and blocks of some sizes in turn, one byte at a time among them.

use super::super::count::Compared;
use super::pair::{Pair, Whole};
use super::six::Six;
use crate::plain::Replay;
use crate::reading::Reading;
use crate::rng::Rng;

/// Empty, beside a record's size, and beside two.
const SIZES: [usize; 7] = [0, 1, 39, 40, 41, 79, 80];

pub fn compared() -> Compared {
    let six = Six::new();
    let mut compared = 0;
    for fuelled in six.fuelled(six.trace.len())? {
        let cut = Cut {
            stack: &six.stack,
            run: &fuelled.run,
            trace: &six.trace,
            whole: &fuelled.whole,
        };
        compared += cut.everywhere()? + cut.by_sizes()?;
    }
    Ok(compared)
}

/// A trace to be cut, and what it comes to at once.
pub struct Cut<'a> {
    pub stack: &'a Reading,
    pub run: &'a Replay,
    pub trace: &'a [u8],
    pub whole: &'a Whole,
}

impl Cut<'_> {
    /// At every two places, which may be one, and the ends of the trace.
    fn everywhere(&self) -> Compared {
        let end = self.trace.len();
        let places = (0..=end).flat_map(|i| (i..=end).map(move |j| (i, j)));
        let blocks = |i, j| [&self.trace[..i], &self.trace[i..j], &self.trace[j..]];
        places.map(|(i, j)| self.in_blocks(blocks(i, j), (i + j) % 2 == 1)).sum()
    }

    /// Blocks of two sizes in turn, all pairs of them.
    pub fn by_sizes(&self) -> Compared {
        let pairs = SIZES.iter().flat_map(|a| SIZES.map(|b| (*a, b)));
        pairs.map(|(a, b)| self.in_blocks(in_turn(self.trace, a, b), a > b)).sum()
    }

    /// All blocks and an end, which have to come to the whole at once, with noise or without.
    fn in_blocks<'b>(&self, blocks: impl IntoIterator<Item = &'b [u8]>, noise: bool) -> Compared {
        let noise = noise.then(|| Rng::new(self.run.fuel));
        let mut pair = Pair::begun(self.stack, self.run, noise);
        for block in blocks {
            pair.answers(block, 0)?;
        }
        pair.finish()?;
        pair.ends_as(self.whole)?;
        Ok(pair.compared)
    }
}

/// As long as there is a byte; where both sizes are 0 the rest comes at once.
fn in_turn(trace: &[u8], a: usize, b: usize) -> Vec<&[u8]> {
    let (mut blocks, mut rest) = (Vec::new(), trace);
    while !rest.is_empty() {
        for size in [a, b, if a + b == 0 { rest.len() } else { 0 }] {
            let (block, behind) = rest.split_at(size.min(rest.len()));
            blocks.push(block);
            rest = behind;
        }
    }
    blocks
}

#[cfg(test)]
mod tests {
    use super::in_turn;

    #[test]
    fn blocks_are_the_trace() {
        let trace: Vec<u8> = (0..9).collect();
        for (a, b) in [(0, 0), (0, 1), (4, 0), (2, 3), (40, 1)] {
            assert_eq!(in_turn(&trace, a, b).concat(), trace, "{a} {b}");
        }
        let sizes: Vec<usize> = in_turn(&trace, 4, 3).iter().map(|block| block.len()).collect();
        assert_eq!(sizes, [4, 3, 0, 2, 0, 0]);
    }
}
