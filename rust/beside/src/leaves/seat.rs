//! A table at which steps are taken with the answer that document 01 gives; what differs is told with the case, as `beside again` takes it.

use super::count::Count;
use crate::case::{Start, Step};
use crate::drive::Failure;
use crate::party::Table;
use crate::plain::Answer;
use crate::reading::Reading;
use crate::shrink::told;
use std::fmt::Debug;

pub struct Seat {
    start: Start,
    steps: Vec<Step>,
    table: Table,
    pub count: Count,
}

impl Seat {
    /// Sets all parties down on a start that none refuses.
    pub fn new(start: Start) -> Result<Self, String> {
        let failure = |why| told(Failure::new(&start, &[], why));
        let table = Table::new(&start).map_err(failure)?.ok_or("all refuse the opening")?;
        Ok(Self {
            start,
            steps: Vec::new(),
            table,
            count: Count::default(),
        })
    }

    /// What all parties agree on.
    pub fn now(&self) -> &Reading {
        &self.table.reading
    }

    /// A step that must get this number.
    pub fn take(&mut self, step: Step, number: u64) -> Result<(), String> {
        let answer = self.answered(step)?;
        self.same(answer.number, number, "the answer")
    }

    /// A step, and what all parties answer to it.
    pub fn answered(&mut self, step: Step) -> Result<Answer, String> {
        self.steps.push(step);
        self.count.compared += 1;
        let outcome = self.table.take(&self.steps[self.steps.len() - 1]);
        outcome.map_err(|why| told(Failure::new(&self.start, &self.steps, why)))
    }

    /// A step that leaves everything as it was, with whatever answer: no later difference is its doing.
    pub fn glance(&mut self, step: &Step) -> Result<(), String> {
        let outcome = self.table.take(step);
        self.count.compared += 1;
        let alone = |why| told(Failure::new(&self.start, std::slice::from_ref(step), why));
        outcome.map(|_| ()).map_err(alone)
    }

    /// Something of what all agree on must be as document 01 says.
    pub fn same<T: PartialEq + Debug>(&mut self, found: T, wanted: T, what: &str) -> Result<(), String> {
        let steps = &self.steps;
        self.count.same(found, wanted, || format!("{what} after {steps:?}"))
    }
}
