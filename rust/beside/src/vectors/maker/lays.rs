//! Lines that lay something down. From then on the Rust takes no part until the next opening, but for the trace, which it does not have.

use super::told::state_tokens;
use super::{Made, Maker};
use crate::plain::{Flagged, Regs, State, anew, said};
use crate::reading::RECORD_BYTES;
use crate::vectors::text::{Row, Token, numbers};

/// The only NaNs that a line may have.
const NAN32: u32 = 0x7fc0_0000;
const NAN64: u64 = 0x7ff8_0000_0000_0000;

impl Maker {
    /// Another state, and other lengths lent.
    pub fn give(&mut self, state: State, words: usize, cells: usize) {
        self.give_told(state, anew(state.current), words, cells);
    }

    /// Another state, whose current instance is told with any flag, and with any number beside a flag of 0.
    pub fn give_told(&mut self, state: State, current: Flagged, words: usize, cells: usize) {
        let state = State {
            current: said(current),
            ..state
        };
        if let Err(why) = plain_floats(&state.regs) {
            self.book.fault(&why);
        }
        let lent = numbers(&[words as u64, cells as u64]);
        self.book.put(Row::of("state", [state_tokens(&state, current), lent].concat()));
        (self.state, self.current, self.lent, self.rust) = (state, current, (words, cells), None);
    }

    /// Another word.
    pub fn give_word(&mut self, index: usize, word: u64) {
        self.book.put(Row::of("word", numbers(&[index as u64, word])));
        (self.words[index], self.rust) = (word, None);
    }

    /// Another cell.
    pub fn give_cell(&mut self, index: usize, cell: u64) {
        self.book.put(Row::of("cell", numbers(&[index as u64, cell])));
        (self.cells[index], self.rust) = (cell, None);
    }

    /// A record of the trace, 0 to 31.
    pub fn lay(&mut self, index: usize, record: &[u8; RECORD_BYTES]) {
        let given = [numbers(&[index as u64]), Token::bytes(record)].concat();
        self.book.put(Row::of("trace", given));
        let at = index * RECORD_BYTES;
        self.trace[at..at + RECORD_BYTES].copy_from_slice(record);
    }

    /// A byte of the trace.
    pub fn byte(&mut self, at: usize, value: u8) {
        self.book.put(Row::of("byte", numbers(&[at as u64, value.into()])));
        self.trace[at] = value;
    }
}

/// Of the NaNs only one of each width is given, since text has no sign of the others being kept.
pub(super) fn plain_floats(regs: &Regs) -> Made<()> {
    let narrow = !f32::from_bits(regs.freg32).is_nan() || regs.freg32 == NAN32;
    let wide = !f64::from_bits(regs.freg64).is_nan() || regs.freg64 == NAN64;
    if narrow && wide {
        Ok(())
    } else {
        Err(format!("{regs:?} has another NaN"))
    }
}
