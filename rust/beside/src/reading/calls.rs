//! Push, pop and replace.

use super::Reading;
use crate::plain::{Answer, Request};

impl Reading {
    pub(super) fn push(&mut self, q: &Request) -> Answer {
        match self.push_refusal(q) {
            0 => self.pushed(q),
            number => Answer::of(number),
        }
    }

    /// Push 9, 2 (depth), 4 or 6, 5, 2, 3.
    fn push_refusal(&self, q: &Request) -> u64 {
        if self.broken(1) {
            return 9;
        }
        if self.state.count == self.state.depth {
            return 2;
        }
        if q.caller.is_some() && self.state.count == 0 {
            return 4;
        }
        if q.caller.is_none() && self.state.count > 0 {
            return 6;
        }
        if disordered(q) || (q.slots == 0 && q.head != 0) {
            return 5;
        }
        if q.slots == 0 {
            0
        } else {
            self.growth(self.top_start() + u64::from(q.head) + u64::from(q.slots))
        }
    }

    fn pushed(&mut self, q: &Request) -> Answer {
        let start = self.top_start() + u64::from(q.head);
        if let Some(ip) = q.caller {
            self.put_ip(ip);
        }
        let mut debt = None;
        if q.instance.is_some() && q.instance != self.state.current {
            debt = self.state.current;
            self.state.current = q.instance;
        }
        self.put_row(self.state.count, q.callee, start, debt);
        self.state.count += 1;
        if q.slots > 0 {
            self.grow(start + u64::from(q.slots));
            self.clear(start + u64::from(q.params), start + u64::from(q.locals));
        }
        Answer {
            offset: start,
            ..Answer::default()
        }
    }

    /// Pop 9, 4.
    pub(super) fn pop(&mut self, q: &Request) -> Answer {
        if self.broken(2) {
            return Answer::of(9);
        }
        if self.state.count == 0 {
            return Answer::of(4);
        }
        self.popped(q.instance.unwrap_or(0))
    }

    /// Removes the newest frame: 1 and nothing else with the last one, else the frame below with the debt or the instance given.
    pub(super) fn popped(&mut self, given: u64) -> Answer {
        let gone = self.row(self.state.count - 1);
        self.state.count -= 1;
        let Some(below) = self.top() else {
            return Answer::of(1);
        };
        if gone.debt().is_some() {
            self.state.current = gone.debt();
        }
        Answer {
            ip: below.ip,
            offset: below.start,
            instance: gone.debt().unwrap_or(given),
            ..Answer::default()
        }
    }

    pub(super) fn replace(&mut self, q: &Request) -> Answer {
        match self.replace_refusal(q) {
            0 => self.replaced(q),
            number => Answer::of(number),
        }
    }

    /// Replace 9, 4, 5, 2, 3, 7.
    fn replace_refusal(&self, q: &Request) -> u64 {
        if self.broken(1) {
            return 9;
        }
        let Some(top) = self.top() else {
            return 4;
        };
        if disordered(q) {
            return 5;
        }
        if q.slots == 0 {
            return 0;
        }
        let needed = top.start + u64::from(q.slots);
        let growth = self.growth(needed);
        if growth != 0 {
            return growth;
        }
        let params_end = top.start + u64::from(q.head) + u64::from(q.params);
        if params_end > self.state.len.max(needed) { 7 } else { 0 }
    }

    fn replaced(&mut self, q: &Request) -> Answer {
        let top = self.row(self.state.count - 1);
        let mut debt = top.debt();
        if q.instance.is_some() {
            if debt.is_none() && self.state.current != q.instance {
                debt = self.state.current;
            }
            self.state.current = q.instance;
        }
        self.put_row(self.state.count - 1, q.callee, top.start, debt);
        if q.slots > 0 {
            self.grow(top.start + u64::from(q.slots));
            self.copy(top.start + u64::from(q.head), top.start, u64::from(q.params));
            self.clear(top.start + u64::from(q.params), top.start + u64::from(q.locals));
        }
        Answer {
            offset: top.start,
            ..Answer::default()
        }
    }
}

/// Not params ≤ locals ≤ slots.
fn disordered(q: &Request) -> bool {
    q.params > q.locals || q.locals > q.slots
}
