//! The Rust of wasmi, driven as its interpreter drives it.

use super::side::{End, Side, Sums};
use super::trace::Trace;
use super::{BYTES, DEPTH};
use oracle::TrapCode;
use oracle::engine::{
    StackConfig,
    executor::handler::state::{
        Stack,
        lean::{self, Request},
    },
};

/// `lean::ask_all`, or `lean::call_all`.
type AskAll = unsafe fn(&mut Stack, &[Request]) -> Result<lean::Sums, TrapCode>;

/// Requests that were decoded beforehand.
pub struct Asked {
    stack: Stack,
    requests: Vec<Request>,
    ask_all: AskAll,
}

impl Asked {
    pub fn inlined() -> Self {
        Self::by(lean::ask_all)
    }

    pub fn behind_a_call() -> Self {
        Self::by(lean::call_all)
    }

    fn by(ask_all: AskAll) -> Self {
        Self {
            stack: opened(),
            requests: Vec::new(),
            ask_all,
        }
    }
}

impl Side for Asked {
    fn load(&mut self, trace: &Trace) -> Result<(), String> {
        let (records, _) = trace.bytes.as_chunks();
        let requests: Option<Vec<Request>> = records.iter().map(lean::read_record).collect();
        self.requests = requests.ok_or("the Rust cannot read a record")?;
        Ok(())
    }

    fn reset(&mut self) {
        self.stack.reset();
    }

    fn run(&mut self, _: &Trace) -> Result<End, String> {
        // SAFETY: document 01 accepts every request of a trace that is timed, and ours has done so with each one before this.
        let sums = unsafe { (self.ask_all)(&mut self.stack, &self.requests) }.map_err(trapped)?;
        Ok(end(&self.stack, sums))
    }
}

/// Requests that are decoded in the loop.
pub struct Replayed {
    stack: Stack,
}

impl Replayed {
    pub fn open() -> Self {
        Self { stack: opened() }
    }
}

impl Side for Replayed {
    fn reset(&mut self) {
        self.stack.reset();
    }

    fn run(&mut self, trace: &Trace) -> Result<End, String> {
        // SAFETY: as for `Asked`.
        match unsafe { lean::replay(&mut self.stack, &trace.bytes) }.map_err(trapped)? {
            (sums, 0) => Ok(end(&self.stack, sums)),
            (_, bad) => Err(format!("the Rust cannot read {bad} records")),
        }
    }
}

fn opened() -> Stack {
    Stack::new(&StackConfig::new(0, BYTES, DEPTH))
}

fn end(stack: &Stack, lean::Sums { offsets, others }: lean::Sums) -> End {
    End {
        count: stack.count(),
        len: stack.cells_len(),
        sums: Some(Sums { offsets, others }),
    }
}

fn trapped(trap: TrapCode) -> String {
    format!("the Rust traps with {trap:?}")
}
