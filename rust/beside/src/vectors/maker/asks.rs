//! Lines that ask something of the stack.

use super::lays::plain_floats;
use super::told::answer_tokens;
use super::{Made, Maker};
use crate::case::Opening;
use crate::party::Rust;
use crate::plain::{Answer, Flagged, HostFrame, KINDS, Regs, Replay, Request, State, Straight, anew, said};
use crate::reading::{RECORD_BYTES, Reading, handed_back, read_record, replay, write_record};
use crate::vectors::buffers::{BUFFER_CELLS, BUFFER_WORDS, refill};
use crate::vectors::call::{Call, course};
use crate::vectors::desk::NO_TAPE;
use crate::vectors::line::first;
use crate::vectors::lists::list;
use crate::vectors::moves::Move;
use crate::vectors::nine::fourteen;
use crate::vectors::text::numbers;
use std::ops::Range;

impl Maker {
    /// Opens over refilled buffers: so many bytes, frames, words and cells. The tape is one of zeros from then on.
    pub fn open(&mut self, opening: [u64; 4]) -> Made<u64> {
        let [bytes, depth, words, cells] = opening;
        if words > BUFFER_WORDS as u64 || cells > BUFFER_CELLS as u64 {
            return Err(format!("{words} words and {cells} cells are more than there are"));
        }
        refill(&mut self.words, &mut self.cells);
        (self.lent, self.state) = ((words as usize, cells as usize), State::default());
        (self.current, self.tape) = (anew(None), NO_TAPE);
        let before = self.world();
        let (number, after) = Reading::open(bytes, depth, before.words, before.cells);
        let opened = Rust::open(&Opening {
            bytes,
            depth,
            words,
            cells,
            fill: 0,
        });
        let found = opened.as_ref().err().copied().unwrap_or(0);
        let lines = fourteen(bytes, depth, self.lent.0, self.lent.1);
        if found != number || first(&lines) != number {
            return Err(format!("opening with {opening:?}: {number}, {found}, {lines:?}"));
        }
        self.ledger.add(&("opening", lines));
        self.rust = opened.ok();
        let current = anew(after.state.current);
        self.tell(&Call::Open(opening), answer_tokens(&Answer::of(number)), after, current)?;
        Ok(number)
    }

    /// A request, by the word of its kind.
    pub fn ask(&mut self, q: &Request) -> Made<Answer> {
        let mut record = [0; RECORD_BYTES];
        write_record(&mut record, 0, q);
        if read_record(&record, 0).as_ref() != Some(q) {
            return Err(format!("{q:?} is not what its record says"));
        }
        let (answer, world) = self.put_to_all(&Move::Ask(*q))?;
        self.tell_answered(&Call::Request(Straight::as_read(q)), &answer, world)?;
        Ok(answer)
    }

    /// A request as the C face takes it; a kind that is none of the nine is 10.
    pub fn ask_straight(&mut self, q: &Straight) -> Made<Answer> {
        let (answer, world) = if (1..=KINDS.len() as u64).contains(&q.kind) {
            self.put_to_all(&Move::Ask(q.request()))?
        } else {
            (Answer::of(10), self.world())
        };
        self.tell_answered(&Call::Ask(*q), &answer, world)?;
        Ok(answer)
    }

    /// A record, good or bad: 10 where it reads badly, and nothing changes.
    pub fn record(&mut self, record: &[u8; RECORD_BYTES]) -> Made<Answer> {
        let (answer, world) = match read_record(record, 0) {
            Some(q) => self.put_to_all(&Move::Ask(q))?,
            None => (Answer::of(10), self.world()),
        };
        self.tell_answered(&Call::Record(*record), &answer, world)?;
        Ok(answer)
    }

    /// A register sync.
    pub fn registers(&mut self, regs: Regs) -> Made<Answer> {
        plain_floats(&regs)?;
        let (answer, world) = self.put_to_all(&Move::Registers(regs))?;
        self.tell_answered(&Call::Registers(regs), &answer, world)?;
        Ok(answer)
    }

    pub fn part(&mut self, frame: &HostFrame) -> Made<Answer> {
        let (answer, world) = self.put_to_all(&Move::Part(*frame))?;
        let told = numbers(&[answer.number, answer.offset, answer.part.0, answer.part.1]);
        self.tell(&Call::Part(*frame), told, world, self.current)?;
        Ok(answer)
    }

    /// Whatever is asked.
    pub fn asked(&mut self, asked: &Move) -> Made<Answer> {
        match asked {
            Move::Ask(q) => self.ask(q),
            Move::Registers(regs) => self.registers(*regs),
            Move::Part(frame) => self.part(frame),
        }
    }

    /// Bytes of the trace replayed, so many times one after another. The Rust takes no part until the next opening.
    pub fn replay(&mut self, run: Replay, bytes: Range<usize>, times: u64) -> Made<Replay> {
        self.replay_told(run, anew(run.stopped), bytes, times).map(|(ran, _)| ran)
    }

    /// So with a stop that is told with any flag, and with any number beside a flag of 0; and how it is told afterwards.
    pub fn replay_told(&mut self, run: Replay, stop: Flagged, bytes: Range<usize>, times: u64) -> Made<(Replay, Flagged)> {
        let run = Replay {
            stopped: said(stop),
            ..run
        };
        let (mut ran, mut world) = (run, self.world());
        let (mut told, mut current) = (stop, self.current);
        for _ in 0..times {
            ran = replay(&mut world, ran, &self.trace[bytes.clone()], |_, _| ());
            (told, current) = (handed_back(told, ran.stopped), handed_back(current, world.state.current));
        }
        self.rust = None;
        self.tell(&Call::Replay(run, stop, bytes, times), course(&ran, told), world, current)?;
        Ok((ran, told))
    }

    /// Puts a move to the lists, the reading and the Rust: the answer, and the world after it.
    fn put_to_all(&mut self, asked: &Move) -> Made<(Answer, Reading)> {
        let mut world = self.world();
        let listed = list(&world, asked);
        let answer = asked.read(&mut world);
        let number = if answer.accepted() { 0 } else { answer.number };
        let on = format!("{asked:?} on {:?}", self.state);
        if first(&listed.1) != number {
            return Err(format!("{on}: {answer:?}, listed {listed:?}"));
        }
        if let Some(rust) = &mut self.rust {
            let found = rust.take(&asked.step()).map_err(|why| format!("{on}: {why}"))?;
            let other = (found != answer).then(|| format!("the Rust answers {found:?}, not {answer:?}"));
            rust.differs(&world).or(other).map_or(Ok(()), |why| Err(format!("{on}: {why}")))?;
        }
        self.ledger.add(&listed);
        Ok((answer, world))
    }
}
