//! A trace that arrives in blocks (document 02, T-01), read plainly: byte after byte, and a record is replayed as soon as it is whole.

use super::{RECORD_BYTES, Reading, handed_back, replay};
use crate::plain::{Flagged, Replay, said};
use std::mem;

/// A replay whose trace arrives in blocks.
#[derive(Clone, Debug, Default, PartialEq, Eq)]
pub struct Tape {
    pub run: Replay,
    /// The unfinished record.
    pub held: Vec<u8>,
    /// It was said that the trace has ended.
    pub ended: bool,
}

impl Tape {
    /// The next block: 0; or 22, for a nonempty one after an end without a stop, and nothing changes.
    pub fn feed(&mut self, stack: &mut Reading, block: &[u8]) -> u64 {
        for byte in block {
            if self.run.stopped.is_some() {
                return 0;
            }
            if self.ended {
                return 22;
            }
            self.held.push(*byte);
            if self.held.len() == RECORD_BYTES {
                self.replay_held(stack);
            }
        }
        0
    }

    /// The trace has ended: what is held is a short record. A second end adds nothing, and so does one after a stop.
    pub fn finish(&mut self, stack: &mut Reading) {
        if self.is_over() {
            return;
        }
        self.replay_held(stack);
        self.ended = true;
    }

    /// No byte can move it any more.
    pub fn is_over(&self) -> bool {
        self.run.stopped.is_some() || self.ended
    }

    /// No byte is held afterwards, also where the fuel does not cover the record.
    fn replay_held(&mut self, stack: &mut Reading) {
        let record = mem::take(&mut self.held);
        self.run = replay(stack, self.run, &record, |_, _| ());
    }
}

/// A tape as the C face has it, beside the state: any numbers.
#[derive(Clone, Copy, Debug, PartialEq, Eq)]
pub struct StraightTape {
    pub number: u64,
    pub fuel: u64,
    pub spent: u64,
    pub stop: Flagged,
    pub kept: [u8; RECORD_BYTES],
    pub held: u64,
    pub end_flag: u64,
}

impl StraightTape {
    /// What it says. An unfinished record has at most 39 bytes, so that more count as 39.
    pub fn tape(&self) -> Tape {
        let held = self.held.min(RECORD_BYTES as u64 - 1) as usize;
        Tape {
            run: Replay {
                number: self.number,
                fuel: self.fuel,
                spent: self.spent,
                stopped: said(self.stop),
            },
            held: self.kept[..held].to_vec(),
            ended: self.end_flag != 0,
        }
    }

    /// The next block: the number, and what is handed back, which is all as it came where no byte was taken.
    pub fn feed(&self, stack: &mut Reading, block: &[u8]) -> (u64, Self) {
        let mut tape = self.tape();
        if tape.is_over() || block.is_empty() {
            return (tape.feed(stack, block), *self);
        }
        (tape.feed(stack, block), self.moved_to(&tape))
    }

    /// The end: what is handed back, which is all as it came where it adds nothing.
    pub fn finish(&self, stack: &mut Reading) -> Self {
        let mut tape = self.tape();
        if tape.is_over() {
            return *self;
        }
        tape.finish(stack);
        self.moved_to(&tape)
    }

    /// The stop as a replay hands it back, zeros behind the bytes held, and a flag of 1 for an end that is new.
    fn moved_to(self, tape: &Tape) -> Self {
        let mut kept = [0; RECORD_BYTES];
        kept[..tape.held.len()].copy_from_slice(&tape.held);
        Self {
            number: tape.run.number,
            fuel: tape.run.fuel,
            spent: tape.run.spent,
            stop: handed_back(self.stop, tape.run.stopped),
            kept,
            held: tape.held.len() as u64,
            end_flag: tape.ended.into(),
        }
    }
}

#[cfg(test)]
mod tests {
    use super::{RECORD_BYTES, Reading, Replay, StraightTape, Tape, replay};
    use crate::example::{P, Q};
    use crate::reading::write_record;

    fn opened() -> Reading {
        Reading::open(80, 3, vec![7; 12], vec![7; 10]).1
    }

    fn with_fuel(fuel: u64) -> Tape {
        let run = Replay { fuel, ..Replay::default() };
        Tape { run, ..Tape::default() }
    }

    /// P, Q, and a byte of a third record: 3 + 2 + 1.
    fn trace() -> [u8; 81] {
        let mut trace = [2; 81];
        for (q, at) in [(P, 0), (Q, 40)] {
            assert_eq!(write_record(&mut trace, at, &q), 0);
        }
        trace
    }

    fn run(number: u64, fuel: u64, spent: u64, stopped: Option<u64>) -> Replay {
        Replay {
            number,
            fuel,
            spent,
            stopped,
        }
    }

    #[test]
    fn whatever_the_cuts_it_is_the_whole_trace_at_once() {
        let trace = trace();
        for fuel in 0..8 {
            let mut at_once = opened();
            let replayed = replay(&mut at_once, with_fuel(fuel).run, &trace, |_, _| ());
            for cut in 0..=trace.len() {
                let (mut tape, mut stack) = (with_fuel(fuel), opened());
                let numbers = [&trace[..cut], &trace[cut..]].map(|block| tape.feed(&mut stack, block));
                tape.finish(&mut stack);
                assert_eq!((numbers, tape.run, &stack), ([0, 0], replayed, &at_once), "fuel {fuel}, cut {cut}");
            }
        }
    }

    #[test]
    fn a_short_record_is_reported_at_the_end_and_once() {
        let (mut tape, mut stack) = (with_fuel(6), opened());
        assert_eq!(tape.feed(&mut stack, &trace()), 0);
        assert_eq!((tape.run, &tape.held[..], tape.ended), (run(2, 6, 5, None), &[2][..], false));
        tape.finish(&mut stack);
        let ended = Tape {
            run: run(3, 6, 6, None),
            held: Vec::new(),
            ended: true,
        };
        assert_eq!(tape, ended);
        tape.finish(&mut stack);
        assert_eq!((tape.feed(&mut stack, &[]), tape.feed(&mut stack, &[1]), &tape), (0, 22, &ended));
    }

    #[test]
    fn an_empty_block_changes_nothing() {
        let (mut tape, mut stack) = (with_fuel(0), opened());
        assert_eq!((tape.feed(&mut stack, &[1; 39]), tape.run), (0, with_fuel(0).run));
        let before = tape.clone();
        assert_eq!((tape.feed(&mut stack, &[]), tape, stack), (0, before, opened()));
    }

    #[test]
    fn a_stop_is_only_repeated() {
        for (fuel, stopped) in [(2, run(0, 2, 0, Some(3))), (4, run(1, 4, 3, Some(2))), (5, run(2, 5, 5, Some(1)))] {
            let (mut tape, mut stack) = (with_fuel(fuel), opened());
            assert_eq!(tape.feed(&mut stack, &trace()), 0);
            tape.finish(&mut stack);
            assert_eq!((tape.run, &tape.held[..], tape.ended), (stopped, &[][..], fuel == 5));
            let (before, number) = (tape.clone(), tape.feed(&mut stack, &trace()));
            tape.finish(&mut stack);
            assert_eq!((number, tape), (0, before));
        }
    }

    fn straight(kept: [u8; RECORD_BYTES], held: u64) -> StraightTape {
        StraightTape {
            number: 0,
            fuel: 9,
            spent: 0,
            stop: [0, 5],
            kept,
            held,
            end_flag: 0,
        }
    }

    #[test]
    fn more_than_39_held_count_as_39() {
        for held in [39, 40, u64::MAX] {
            let came = straight([1; RECORD_BYTES], held);
            assert_eq!(came.tape().held, [1; 39]);
            let (number, back) = came.feed(&mut opened(), &[1, 1]);
            let mut kept = [0; RECORD_BYTES];
            kept[0] = 1;
            let one_more = StraightTape {
                number: 1,
                spent: 1,
                ..straight(kept, 1)
            };
            assert_eq!((number, back), (0, one_more));
        }
    }

    #[test]
    fn what_nothing_moves_comes_back_number_for_number() {
        let came = straight([1; RECORD_BYTES], 77);
        let stopped = StraightTape { stop: [3, 5], ..came };
        let ended = StraightTape { end_flag: 9, ..came };
        let both = StraightTape { end_flag: 9, ..stopped };
        assert_eq!(came.feed(&mut opened(), &[]), (0, came));
        for (tape, number) in [(stopped, 0), (ended, 22), (both, 0)] {
            assert_eq!((tape.feed(&mut opened(), &[1]), tape.finish(&mut opened())), ((number, tape), tape));
        }
    }
}
