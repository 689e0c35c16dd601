//! The archive as a party of every line: it is called as the program calls it, and everything that it leaves behind is compared.

use super::call::{Call, tape_tokens};
use super::desk::Desk;
use super::text::Token;
use crate::party::convert::{plain_tape, raw_host, raw_regs, raw_state, raw_straight, raw_tape};
use crate::plain::{Flagged, HostFrame, Regs, Replay, Straight};
use crate::reading::{RECORD_BYTES, StraightTape};
use cattlecleat::raw;
use std::ops::Range;

/// No noise beside a flag of 0.
const QUIET: u64 = 0;

struct Archive {
    state: raw::State,
    words: Vec<u64>,
    cells: Vec<u64>,
    trace: Vec<u8>,
    tape: StraightTape,
}

/// What the archive finds otherwise, called on a desk as it was before: the answer, and the desk after it.
pub fn difference(call: &Call, before: Desk, answer: &[u64], after: &Desk) -> Option<String> {
    let mut archive = Archive {
        state: told_state(&before),
        words: before.world.words,
        cells: before.world.cells,
        trace: before.trace,
        tape: before.tape,
    };
    let found = archive.answer(call);
    if found != answer {
        return Some(format!("the archive answers {found:?}, not {answer:?}"));
    }
    archive.differs(after)
}

/// The state as its lines tell it: with any flag.
fn told_state(desk: &Desk) -> raw::State {
    let [current_flag, current] = desk.current;
    raw::State {
        current_flag,
        current,
        ..raw_state(&desk.world.state, QUIET)
    }
}

impl Archive {
    fn differs(&self, after: &Desk) -> Option<String> {
        let wanted = told_state(after);
        if self.state != wanted {
            return Some(format!("the archive's state is {:?}, not {wanted:?}", self.state));
        }
        let same = [
            ("words", self.words == after.world.words),
            ("cells", self.cells == after.world.cells),
            ("trace", self.trace == after.trace),
            ("tape", self.tape == after.tape),
        ];
        let (what, _) = same.iter().find(|(_, same)| !same)?;
        Some(format!("the archive's {what} differ"))
    }

    /// Every number of the answer.
    fn answer(&mut self, call: &Call) -> Vec<u64> {
        match call {
            Call::Open([bytes, depth, ..]) => self.open(*bytes as usize, *depth as usize),
            Call::Request(q) => self.request(q),
            Call::Ask(q) => self.ask(raw_straight(q)),
            Call::Record(record) => self.record(record),
            Call::Registers(regs) => self.registers(regs),
            Call::Part(frame) => self.part(frame),
            Call::Replay(run, stop, bytes, times) => self.replay(run, *stop, bytes, *times),
            Call::Feed(bytes) => self.feed(bytes),
            Call::Finish => self.finish(),
            Call::Read(length, at) => self.read(*length, *at as usize),
            Call::Write(length, at, q) => self.write(*length, *at as usize, q),
            Call::Into(kind, number) => vec![raw::to_register(*kind, *number); 2],
            Call::From(kind, register) => vec![raw::from_register(*kind, *register); 2],
            Call::Align(ip, base) => {
                let aligned = raw::align(*ip, *base);
                vec![aligned.number, aligned.address]
            }
            Call::Fill(slot, reason) => done(raw::done_with(raw_reason(slot), raw_reason(reason))),
            Call::Take(slot) => done(raw::take_done_reason(raw_reason(slot))),
        }
    }

    fn answered(&mut self, answer: raw::Answer) -> Vec<u64> {
        self.state = answer.state;
        answer_numbers(&answer)
    }

    fn open(&mut self, bytes: usize, depth: usize) -> Vec<u64> {
        let answer = raw::open(bytes, depth, &self.words, &self.cells);
        self.answered(answer)
    }

    fn ask(&mut self, q: raw::Request) -> Vec<u64> {
        let answer = raw::ask(self.state, &mut self.words, &mut self.cells, q);
        self.answered(answer)
    }

    fn request(&mut self, q: &Straight) -> Vec<u64> {
        let mut record = [0; RECORD_BYTES];
        match raw::write_record(&mut record, 0, raw_straight(q)) {
            0 => self.record(&record),
            number => refused(number),
        }
    }

    fn record(&mut self, record: &[u8; RECORD_BYTES]) -> Vec<u64> {
        let read = raw::read_record(record, 0);
        match read.number {
            0 => self.ask(read.request),
            number => refused(number),
        }
    }

    fn registers(&mut self, regs: &Regs) -> Vec<u64> {
        let answer = raw::sync_registers(self.state, &self.words, &self.cells, raw_regs(regs));
        self.answered(answer)
    }

    fn part(&mut self, frame: &HostFrame) -> Vec<u64> {
        let part = raw::host_part(self.state, &self.words, &self.cells, raw_host(frame));
        vec![part.number, part.offset as u64, part.params as u64, part.results as u64]
    }

    fn replay(&mut self, run: &Replay, [stop_flag, cost]: Flagged, bytes: &Range<usize>, times: u64) -> Vec<u64> {
        let mut run = raw::Run {
            state: self.state,
            number: run.number,
            fuel: run.fuel,
            spent: run.spent,
            stop_flag,
            cost,
        };
        for _ in 0..times {
            run = raw::replay(run, &mut self.words, &mut self.cells, &self.trace[bytes.clone()]);
        }
        self.state = run.state;
        vec![run.number, run.fuel, run.spent, run.stop_flag, run.cost]
    }

    fn feed(&mut self, bytes: &Range<usize>) -> Vec<u64> {
        let tape = raw_tape(&self.tape, self.state);
        let fed = raw::feed(tape, &mut self.words, &mut self.cells, &self.trace[bytes.clone()]);
        let tape = self.taped(&fed.tape);
        [vec![fed.number], tape].concat()
    }

    fn finish(&mut self) -> Vec<u64> {
        let tape = raw_tape(&self.tape, self.state);
        let finished = raw::finish(tape, &mut self.words, &mut self.cells);
        self.taped(&finished)
    }

    fn taped(&mut self, tape: &raw::Tape) -> Vec<u64> {
        (self.state, self.tape) = (tape.run.state, plain_tape(tape));
        tape_tokens(&self.tape).iter().flat_map(Token::numbers).collect()
    }

    fn read(&self, length: usize, at: usize) -> Vec<u64> {
        let raw::Read { number, request: q } = raw::read_record(&self.trace[..length], at);
        let counts = [q.head, q.params, q.locals, q.slots, q.results].map(u64::from);
        let words = [q.caller_flag, q.caller, q.callee, q.instance_flag, q.instance];
        [&[number, q.kind][..], &counts, &words].concat()
    }

    fn write(&mut self, length: usize, at: usize, q: &Straight) -> Vec<u64> {
        let number = raw::write_record(&mut self.trace[..length], at, raw_straight(q));
        let words = self.trace.chunks_exact(8).take(6);
        let words = words.map(|eight| eight.iter().fold(0, |word, byte| word << 8 | u64::from(*byte)));
        [number].into_iter().chain(words).collect()
    }
}

fn raw_reason([kind, amount]: &[u64; 2]) -> raw::Reason {
    raw::Reason {
        kind: *kind,
        amount: *amount,
    }
}

fn refused(number: u64) -> Vec<u64> {
    answer_numbers(&raw::Answer {
        number,
        ..raw::Answer::default()
    })
}

fn answer_numbers(answer: &raw::Answer) -> Vec<u64> {
    let (host, regs) = (&answer.host, &answer.regs);
    vec![
        answer.number,
        answer.offset as u64,
        answer.ip,
        answer.instance,
        host.start as u64,
        host.end as u64,
        host.params.into(),
        host.results.into(),
        regs.ireg,
        regs.freg32.to_bits().into(),
        regs.freg64.to_bits(),
    ]
}

fn done(done: raw::Done) -> Vec<u64> {
    let raw::Done { number, reason, slot } = done;
    vec![number, reason.kind, reason.amount, slot.kind, slot.amount]
}
