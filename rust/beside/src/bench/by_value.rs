//! Ours by `cattlecleat_ask`: the state goes by value through every request.

use super::lent::{Lent, accepted, requests};
use super::side::{End, Side, Sums};
use super::trace::Trace;
use cattlecleat::raw;

pub struct ByValue {
    lent: Lent,
    requests: Vec<raw::Request>,
}

impl ByValue {
    pub fn open() -> Result<Self, String> {
        Ok(Self {
            lent: Lent::open()?,
            requests: Vec::new(),
        })
    }
}

impl Side for ByValue {
    fn load(&mut self, trace: &Trace) -> Result<(), String> {
        self.requests = requests(trace)?;
        Ok(())
    }

    fn reset(&mut self) {
        self.lent.reset();
    }

    fn run(&mut self, _: &Trace) -> Result<End, String> {
        let (mut state, mut sums) = (self.lent.state, Sums::default());
        for request in &self.requests {
            let answer = raw::ask(state, &mut self.lent.words, &mut self.lent.cells, *request);
            accepted(answer.number)?;
            state = answer.state;
            sums.offset(answer.offset);
            sums.resumed(answer.ip, answer.instance);
            sums.host(&answer.host);
        }
        self.lent.state = state;
        Ok(self.lent.end(Some(sums)))
    }
}
