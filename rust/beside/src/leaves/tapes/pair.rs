//! Ours and the reading on one tape: each block and each end is put to both, and everything is compared after it.

use super::noise::noisy;
use crate::party::convert::{plain_state, plain_tape, raw_state, raw_state_back, raw_tape};
use crate::plain::{Replay, said};
use crate::reading::{Reading, replay};
use crate::rng::Rng;
use cattlecleat::raw;

pub struct Pair {
    reading: Reading,
    /// As both handed it back last.
    tape: raw::Tape,
    words: Vec<u64>,
    cells: Vec<u64>,
    /// What fills all that must not matter; without it the tape goes in as it came back.
    noise: Option<Rng>,
    /// How many calls were compared.
    pub compared: u64,
}

/// What is put to both.
#[derive(Clone, Copy, Debug)]
enum Call<'a> {
    Block(&'a [u8]),
    End,
}

impl Pair {
    /// A tape that begins, in the middle of a run maybe.
    pub fn begun(stack: &Reading, run: &Replay, noise: Option<Rng>) -> Self {
        let run = raw_run(stack, run);
        let tape = raw::Tape {
            run,
            ..raw::Tape::default()
        };
        Self {
            noise,
            ..Self::given(stack, tape)
        }
    }

    /// Any tape with this stack's state, to go in as it is.
    pub fn given(stack: &Reading, tape: raw::Tape) -> Self {
        Self {
            reading: stack.clone(),
            tape,
            words: stack.words.clone(),
            cells: stack.cells.clone(),
            noise: None,
            compared: 0,
        }
    }

    /// The next block: the number that both answer.
    pub fn feed(&mut self, block: &[u8]) -> Result<u64, String> {
        self.call(Call::Block(block))
    }

    /// The next block, which must get this number.
    pub fn answers(&mut self, block: &[u8], number: u64) -> Result<(), String> {
        match self.feed(block)? {
            found if found == number => Ok(()),
            found => Err(format!("{found}, not {number}, for {block:?} of what is now {:?}", self.tape)),
        }
    }

    pub fn finish(&mut self) -> Result<(), String> {
        self.call(Call::End).map(|_| ())
    }

    pub fn has_stopped(&self) -> bool {
        self.tape.run.stop_flag != 0
    }

    /// What the whole trace at once comes to.
    pub fn ends_as(&self, whole: &Whole) -> Result<(), String> {
        let found = plain_run(&self.tape.run);
        if (found, &self.reading) == (whole.run, &whole.stack) {
            return Ok(());
        }
        let Whole { run, stack } = whole;
        Err(format!("in blocks {found:?}, {:?}; at once {run:?}, {stack:?}", self.reading))
    }

    fn call(&mut self, call: Call) -> Result<u64, String> {
        let came = self.noise.as_mut().map_or(self.tape, |rng| noisy(self.tape, rng));
        let before = self.reading.clone();
        let wanted = self.read(&came, call);
        let found = self.ours(came, call);
        self.compared += 1;
        if (found, &self.words, &self.cells) != (wanted, &self.reading.words, &self.reading.cells) {
            let (words, cells) = (&self.words, &self.cells);
            let ours = format!("ours {found:?}, words {words:?}, cells {cells:?}");
            let reading = format!("the reading {wanted:?}, {:?}", self.reading);
            return Err(format!("{call:?} of {came:?} over {before:?}: {ours}; {reading}"));
        }
        self.tape = found.tape;
        Ok(found.number)
    }

    /// By the reading, every number as the C face hands it back.
    fn read(&mut self, came: &raw::Tape, call: Call) -> raw::Fed {
        let straight = plain_tape(came);
        let (number, tape) = match call {
            Call::Block(block) => straight.feed(&mut self.reading, block),
            Call::End => (0, straight.finish(&mut self.reading)),
        };
        let state = raw_state_back(&came.run.state, &self.reading.state);
        let tape = raw_tape(&tape, state);
        raw::Fed { number, tape }
    }

    fn ours(&mut self, came: raw::Tape, call: Call) -> raw::Fed {
        let (words, cells) = (&mut self.words, &mut self.cells);
        match call {
            Call::Block(block) => raw::feed(came, words, cells, block),
            Call::End => raw::Fed {
                number: 0,
                tape: raw::finish(came, words, cells),
            },
        }
    }
}

/// What a whole trace at once comes to.
pub struct Whole {
    run: Replay,
    stack: Reading,
}

impl Whole {
    /// By the reading, and ours has to come to the same.
    pub fn of(before: &Reading, run: &Replay, trace: &[u8]) -> Result<Self, String> {
        let (mut stack, mut words, mut cells) = (before.clone(), before.words.clone(), before.cells.clone());
        let wanted = replay(&mut stack, *run, trace, |_, _| ());
        let ours = raw::replay(raw_run(before, run), &mut words, &mut cells, trace);
        let state = plain_state(&ours.state);
        let found = (plain_run(&ours), Reading { state, words, cells });
        if found != (wanted, stack.clone()) {
            return Err(format!("at once {found:?}; the reading {wanted:?}, {stack:?}"));
        }
        Ok(Self { run: wanted, stack })
    }
}

fn raw_run(stack: &Reading, run: &Replay) -> raw::Run {
    raw::Run {
        state: raw_state(&stack.state, 0),
        number: run.number,
        fuel: run.fuel,
        spent: run.spent,
        stop_flag: run.stopped.is_some().into(),
        cost: run.stopped.unwrap_or(0),
    }
}

/// What a run says.
fn plain_run(run: &raw::Run) -> Replay {
    Replay {
        number: run.number,
        fuel: run.fuel,
        spent: run.spent,
        stopped: said([run.stop_flag, run.cost]),
    }
}
