//! The two buffers and the trace that a file is run over, and sums over them.

use crate::case::FRAME_WORDS;

/// Rows for one frame more than the largest depth limit.
pub const BUFFER_WORDS: usize = FRAME_WORDS as usize * 65_537;

/// Cells for the largest counts behind a start.
pub const BUFFER_CELLS: usize = 65_540;

pub const TRACE_BYTES: usize = 1_280;

/// How many words an opening refills, and how many a sum is taken over.
pub const FIRST_WORDS: usize = 256;

/// A word at an opening is this and its index, and a cell likewise.
const WORDS_FROM: u64 = 1000;
const CELLS_FROM: u64 = 2000;

/// The buffers as every opening finds them.
pub fn refill(words: &mut [u64], cells: &mut [u64]) {
    let fill = |places: &mut [u64], from: u64| places.iter_mut().zip(from..).for_each(|(place, number)| *place = number);
    fill(&mut words[..FIRST_WORDS], WORDS_FROM);
    fill(cells, CELLS_FROM);
}

/// Each number times twice its place and one, wrapping.
pub fn sum_of(numbers: &[u64]) -> u64 {
    let weighted = |(i, number): (usize, &u64)| number.wrapping_mul(2 * i as u64 + 1);
    numbers.iter().enumerate().map(weighted).fold(0, u64::wrapping_add)
}

#[cfg(test)]
mod tests {
    use super::{BUFFER_CELLS, BUFFER_WORDS, refill, sum_of};

    #[test]
    fn a_place_weighs_twice_itself_and_one() {
        assert_eq!(sum_of(&[5, 7, 11]), 5 + 3 * 7 + 5 * 11);
        assert_eq!(sum_of(&[1, u64::MAX]), u64::MAX - 1);
    }

    #[test]
    fn an_opening_refills_the_first_words() {
        let (mut words, mut cells) = (vec![0; BUFFER_WORDS], vec![0; BUFFER_CELLS]);
        refill(&mut words, &mut cells);
        assert_eq!((words[0], words[255], words[256]), (1000, 1255, 0));
        assert_eq!((cells[0], cells[65_539]), (2000, 67_539));
    }
}
