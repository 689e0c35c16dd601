//! Makes lines one after another. Each is put to the Rust, to the reading, to the refusal lists and to the archive, and all must agree.

mod asks;
mod lays;
mod leaves;
mod tapes;
mod told;

use super::buffers::{BUFFER_CELLS, BUFFER_WORDS, FIRST_WORDS, TRACE_BYTES};
use super::desk::{Desk, NO_TAPE};
use super::ledger::Ledger;
use super::text::Book;
use crate::party::Party;
use crate::plain::{Flagged, State, anew};
use crate::reading::{Reading, StraightTape};

/// A step that failed: the parties differ, and how.
pub type Made<T> = Result<T, String>;

pub struct Maker {
    pub book: Book,
    pub ledger: Ledger,
    /// The two whole buffers, and how much of each is lent.
    words: Vec<u64>,
    cells: Vec<u64>,
    lent: (usize, usize),
    state: State,
    /// How the state's current instance is told.
    current: Flagged,
    trace: Vec<u8>,
    tape: StraightTape,
    /// Whether the buffers are told by sums.
    sums: bool,
    /// Nothing after a line that the Rust cannot follow: a refused opening, a state, word or cell put in its place, a replay, a block or an end.
    rust: Option<Box<dyn Party>>,
}

impl Maker {
    pub fn new() -> Self {
        Self {
            book: Book::default(),
            ledger: Ledger::default(),
            words: vec![0; BUFFER_WORDS],
            cells: vec![0; BUFFER_CELLS],
            lent: (0, 0),
            state: State::default(),
            current: anew(None),
            trace: vec![0; TRACE_BYTES],
            tape: NO_TAPE,
            sums: false,
            rust: None,
        }
    }

    /// A file begins: its name without .txt, and a sentence that says what it holds. All is zeros again, and told in full.
    pub fn file(&mut self, name: &str, about: &str) {
        self.clear();
        self.book.file(name, about);
    }

    /// A series of files begins, told by sums: NAME-1, NAME-2 and so on, parted where something begins anew.
    pub fn series(&mut self, name: &str, about: &str) {
        self.clear();
        self.sums = true;
        self.book.series(name, about);
    }

    fn clear(&mut self) {
        self.words.fill(0);
        self.cells.fill(0);
        self.trace.fill(0);
        (self.lent, self.state, self.sums, self.rust) = ((0, 0), State::default(), false, None);
        (self.current, self.tape) = (anew(None), NO_TAPE);
    }

    /// An empty line and a comment above the lines that follow.
    pub fn says(&mut self, words: &str) {
        self.book.says(words);
    }

    /// A comment where a file of a series may begin: an opening must follow, and all that it does not refill must be zeros.
    pub fn anew(&mut self, words: &str) {
        let untouched = self.words[FIRST_WORDS..].iter().all(|word| *word == 0) && self.trace.iter().all(|byte| *byte == 0);
        if !untouched || !self.sums {
            self.book.fault("a file of a series cannot begin here");
        }
        self.book.anew(words);
    }

    /// From here on every lent word and cell is told.
    pub fn full(&mut self) {
        self.sums = false;
        self.book.mode(false);
    }

    /// From here on both buffers are told by sums.
    pub fn sums(&mut self) {
        self.sums = true;
        self.book.mode(true);
    }

    /// The state as the next request finds it.
    pub fn state(&self) -> &State {
        &self.state
    }

    /// How the state's current instance is told.
    pub fn current(&self) -> Flagged {
        self.current
    }

    /// The stack as the next request finds it.
    pub fn world(&self) -> Reading {
        Reading {
            state: self.state,
            words: self.words[..self.lent.0].to_vec(),
            cells: self.cells[..self.lent.1].to_vec(),
        }
    }

    /// All words, lent or not.
    pub fn words(&self) -> &[u64] {
        &self.words
    }

    fn desk(&self) -> Desk {
        Desk {
            world: self.world(),
            current: self.current,
            trace: self.trace.clone(),
            tape: self.tape,
        }
    }
}
