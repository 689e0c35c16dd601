//! Document 01 read plainly, and of document 02 what is carried out: every rule as it stands there, on numbers and vectors, for any state,
//! words and request whatever.
//!
//! It shares nothing with ours and nothing with the Rust. Refusals are tested one after another in the documents' order.

mod calls;
mod hosts;
mod records;
mod replay;
mod simple;
mod tape;
#[cfg(test)]
mod tests;

pub use self::{
    records::{RECORD_BYTES, read_record, write_record, write_straight},
    replay::{handed_back, replay},
    tape::StraightTape,
};

use crate::plain::{Answer, Regs, Request, State};

const MAX_DEPTH: u64 = 65_536;
const MAX_BYTES: u64 = 8_388_608;
const MAX_CELLS: u64 = 1_048_576;
const ROW_WORDS: u64 = 4;

/// A stack with the buffers lent to it.
#[derive(Clone, Debug, PartialEq, Eq)]
pub struct Reading {
    pub state: State,
    pub words: Vec<u64>,
    pub cells: Vec<u64>,
}

/// A frame as it lies in the words.
#[derive(Clone, Copy)]
struct Row {
    ip: u64,
    start: u64,
    flag: u64,
    debt: u64,
}

impl Row {
    fn debt(&self) -> Option<u64> {
        (self.flag != 0).then_some(self.debt)
    }
}

impl Reading {
    /// Opens a stack: 0 with its state, or 14 with a state of zeros.
    pub fn open(bytes: u64, depth: u64, words: Vec<u64>, cells: Vec<u64>) -> (u64, Self) {
        let (lent_words, lent_cells) = (words.len() as u64, cells.len() as u64);
        let beyond = depth > MAX_DEPTH || bytes > MAX_BYTES || lent_cells > MAX_CELLS || ROW_WORDS * depth > lent_words;
        if beyond {
            return (
                14,
                Self {
                    state: State::default(),
                    words,
                    cells,
                },
            );
        }
        let state = State {
            depth,
            height: bytes / 8,
            words: lent_words,
            cells: lent_cells,
            ..State::default()
        };
        (0, Self { state, words, cells })
    }

    /// Asks for one of the nine requests; another kind is 10.
    pub fn ask(&mut self, q: &Request) -> Answer {
        match q.kind {
            1 => self.push(q),
            2 => self.pop(q),
            3 => self.replace(q),
            4 => self.host(q),
            5 => self.return_host(q),
            6 => self.sync(q),
            7 => self.restore(),
            8 => self.reset(),
            9 => self.set(q),
            _ => Answer::of(10),
        }
    }

    /// Stores all three registers; only 9 refuses it.
    pub fn sync_registers(&mut self, regs: Regs) -> Answer {
        if self.broken(0) {
            return Answer::of(9);
        }
        self.state.regs = regs;
        Answer::of(0)
    }

    /// 9: something is wrong with the lengths, the limits, or one of the newest frames, of which so many are read.
    fn broken(&self, read: u64) -> bool {
        let s = &self.state;
        s.words != self.words.len() as u64
            || s.cells != self.cells.len() as u64
            || s.depth > MAX_DEPTH
            || s.height > MAX_CELLS
            || s.cells > MAX_CELLS
            || ROW_WORDS * s.depth > s.words
            || s.count > s.depth
            || s.len > s.cells
            || s.len > s.height
            || (0..read.min(s.count)).any(|older| self.bad_row(s.count - 1 - older))
    }

    fn bad_row(&self, index: u64) -> bool {
        let row = self.row(index);
        row.start > self.state.len || row.flag > 1 || (row.flag == 0 && row.debt != 0)
    }

    /// A frame's row, the oldest first.
    fn row(&self, index: u64) -> Row {
        let at = (ROW_WORDS * index) as usize;
        Row {
            ip: self.words[at],
            start: self.words[at + 1],
            flag: self.words[at + 2],
            debt: self.words[at + 3],
        }
    }

    fn put_row(&mut self, index: u64, ip: u64, start: u64, debt: Option<u64>) {
        let at = (ROW_WORDS * index) as usize;
        let row = [ip, start, u64::from(debt.is_some()), debt.unwrap_or(0)];
        self.words[at..at + 4].copy_from_slice(&row);
    }

    /// Stores an ip in the newest frame.
    fn put_ip(&mut self, ip: u64) {
        let at = (ROW_WORDS * (self.state.count - 1)) as usize;
        self.words[at] = ip;
    }

    /// The newest frame, where there is one.
    fn top(&self) -> Option<Row> {
        (self.state.count > 0).then(|| self.row(self.state.count - 1))
    }

    /// The newest frame's start, 0 without frames.
    fn top_start(&self) -> u64 {
        self.top().map_or(0, |row| row.start)
    }

    /// Growing to a needed length: 2, 3, or 0.
    fn growth(&self, needed: u64) -> u64 {
        if needed > self.state.height {
            return 2;
        }
        if needed > self.state.cells { 3 } else { 0 }
    }

    fn grow(&mut self, needed: u64) {
        self.state.len = self.state.len.max(needed);
    }

    /// Sets cells from one index up to another, not included, to zero.
    fn clear(&mut self, from: u64, to: u64) {
        self.cells[from as usize..to as usize].fill(0);
    }

    /// Copies cells as if all were read first.
    fn copy(&mut self, from: u64, to: u64, count: u64) {
        let read: Vec<u64> = self.cells[from as usize..(from + count) as usize].to_vec();
        self.cells[to as usize..(to + count) as usize].copy_from_slice(&read);
    }
}
