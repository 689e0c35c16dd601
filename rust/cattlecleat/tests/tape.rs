//! Traces in blocks: cut anywhere, copied from files, after an end and after a stop.
use crate::world::{Owned, P, Q, opened, whole};
use cattlecleat::{FRAME_WORDS, Limits, PushArgs, RECORD_BYTES, Refusal, Replayed, Request, Stack, Tape};
use std::fs::{self, File};
use std::io::{self, ErrorKind, Write};
use std::path::{Path, PathBuf};

/// A push, one that is refused with 6, a bad record, a push, a short record.
fn trace() -> Vec<u8> {
    let wide = PushArgs { locals: 3, ..Q };
    let [first, again, mut bad, second] = [P, P, P, wide].map(|q| Request::Push(q).to_record());
    bad[1] = 4;
    [&first[..], &again, &bad, &second, &[8, 0, 0]].concat()
}

/// Cells zeroed: two locals, and two behind a parameter.
const COSTS: [u64; 5] = [3, 1, 1, 3, 1];
const COST: u64 = 9;

fn stack() -> Owned {
    opened(80, 10)
}

/// What came of the trace at once, and the stack after it.
fn at_once(fuel: u64, trace: &[u8]) -> (Replayed, Owned) {
    let mut stack = stack();
    (stack.replay(fuel, trace), stack)
}

/// The tape is where the whole trace at once leads to.
#[track_caller]
fn same_as_at_once(tape: &Tape<Vec<u64>>, fuel: u64, trace: &[u8]) {
    let (replayed, stack) = at_once(fuel, trace);
    assert_eq!((tape.replayed(), whole(tape.stack())), (replayed, whole(&stack)), "fuel {fuel}");
}

#[test]
fn cut_anywhere_with_any_fuel() {
    let trace = trace();
    for fuel in 0..=COST + 1 {
        for cut in 0..=trace.len() {
            let mut tape = Tape::new(stack(), fuel);
            assert_eq!((tape.feed(&trace[..cut]), tape.feed(&trace[cut..])), (Ok(()), Ok(())));
            tape.finish();
            same_as_at_once(&tape, fuel, &trace);
        }
    }
}

#[test]
fn what_is_held_and_what_is_spent_after_each_byte() {
    let trace = trace();
    let mut tape = Tape::new(stack(), COST);
    for (at, byte) in trace.iter().enumerate() {
        assert_eq!(tape.feed(&[*byte]), Ok(()));
        let (records, held) = ((at + 1) / RECORD_BYTES, (at + 1) % RECORD_BYTES);
        assert_eq!(tape.held(), &trace[at + 1 - held..=at]);
        let spent = COSTS[..records].iter().sum();
        let (records, stopped) = (records as u64, None);
        assert_eq!(tape.replayed(), Replayed { records, spent, stopped });
    }
    let (records, spent, stopped) = (5, COST, None);
    assert_eq!(tape.finish(), Replayed { records, spent, stopped });
    assert_eq!((tape.held(), tape.is_ended()), (&[][..], true));
}

/// A file of this test's own, which is removed again.
struct Scratch(PathBuf);

impl Scratch {
    fn new(name: &str, bytes: &[u8]) -> Self {
        let path = Path::new(env!("CARGO_TARGET_TMPDIR")).join(format!("{name}.{}", std::process::id()));
        fs::write(&path, bytes).expect("the folder is for this");
        Self(path)
    }
}

impl Drop for Scratch {
    fn drop(&mut self) {
        let _ = fs::remove_file(&self.0);
    }
}

/// Longer than what `io::copy` reads at a time, which is no multiple of 40.
const TIMES: u64 = 500;

/// So many times the whole records and a reset, then the short one.
fn long_trace() -> Vec<u8> {
    let trace = trace();
    let (records, short) = trace.split_at(4 * RECORD_BYTES);
    let round = [records, &Request::Reset.to_record()].concat();
    [&round.repeat(TIMES as usize), short].concat()
}

#[test]
fn a_file_is_copied_as_its_bytes_are_replayed() {
    let trace = long_trace();
    let file = Scratch::new("tape", &trace);
    let cost = TIMES * COST + 1;
    for fuel in [0, 1_000, cost - 1, cost] {
        let mut tape = Tape::new(stack(), fuel);
        let copied = io::copy(&mut File::open(&file.0).expect("it was written"), &mut tape);
        assert_eq!(copied.expect("a tape takes every byte"), trace.len() as u64);
        tape.finish();
        same_as_at_once(&tape, fuel, &trace);
        assert_eq!(tape.replayed().stopped.is_none(), fuel == cost);
    }
}

#[test]
fn the_files_of_the_examples() {
    let folder = Path::new(env!("CARGO_MANIFEST_DIR")).join("../../examples");
    for name in ["worked", "requests", "bad", "deep", "fuel"] {
        let path = folder.join(name).with_extension("trace");
        let trace = fs::read(&path).expect("an example");
        let mut tape = Tape::new(stack(), 1_000);
        let copied = io::copy(&mut File::open(&path).expect("an example"), &mut tape);
        assert_eq!(copied.expect("a tape takes every byte"), trace.len() as u64, "{name}");
        tape.finish();
        same_as_at_once(&tape, 1_000, &trace);
    }
}

#[test]
fn after_an_end_a_write_is_refused_with_22() {
    let mut tape = Tape::new(stack(), COST);
    tape.write_all(&trace()).expect("before the end");
    tape.flush().expect("it does nothing");
    assert!(!tape.is_ended());
    tape.finish();
    let ended = (tape.replayed(), whole(tape.stack()));
    let error = tape.write_all(&[8]).expect_err("after the end");
    assert_eq!(error.kind(), ErrorKind::InvalidInput);
    let inner = error.get_ref().and_then(|inner| inner.downcast_ref());
    assert_eq!(inner, Some(&Refusal::Ended));
    tape.write_all(&[]).expect("an empty block is none");
    tape.finish();
    assert_eq!((tape.replayed(), whole(tape.stack())), ended);
}

#[test]
fn after_a_stop_writes_and_ends_only_say_it_again() {
    let trace = trace();
    for fuel in 0..COST {
        let mut tape = Tape::new(stack(), fuel);
        tape.write_all(&trace).expect("before the end");
        let stopped_at_end = fuel == COST - 1;
        assert_eq!(tape.replayed().stopped.is_none(), stopped_at_end);
        let stopped = tape.finish();
        assert_eq!((tape.is_ended(), tape.held()), (stopped_at_end, &[][..]));
        assert_eq!(tape.write(&trace).expect("a stop is no error"), trace.len());
        assert_eq!((tape.feed(&trace), tape.finish()), (Ok(()), stopped));
        same_as_at_once(&tape, fuel, &trace);
    }
}

#[test]
fn the_stack_goes_on_afterwards() {
    let (mut words, mut cells) = ([0; 3 * FRAME_WORDS], [7; 10]);
    let limits = Limits { depth: 3, bytes: 80 };
    let lent = Stack::open(limits, &mut words[..], &mut cells[..]).expect("the limits are small");
    let mut tape = Tape::new(lent, COST);
    tape.write_all(&trace()).expect("before the end");
    assert_eq!((tape.stack().depth(), tape.stack().len()), (2, 5));
    let mut stack = tape.into_stack();
    assert_eq!((stack.set(2, 9), stack.cells()), (Ok(4), &[0, 0, 7, 0, 9][..]));
    let mut next = Tape::new(stack, 1);
    next.feed(&Request::Pop(2).to_record()).expect("before the end");
    let (records, spent, stopped) = (1, 1, None);
    assert_eq!(next.finish(), Replayed { records, spent, stopped });
    assert_eq!((next.stack().depth(), next.stack().current()), (1, Some(1)));
}
