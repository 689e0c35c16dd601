//! Sync, restore, reset and set.

use super::Reading;
use crate::plain::{Answer, Regs, Request};

impl Reading {
    /// Sync 9, 4.
    pub(super) fn sync(&mut self, q: &Request) -> Answer {
        if self.broken(1) {
            return Answer::of(9);
        }
        if self.state.count == 0 {
            return Answer::of(4);
        }
        self.put_ip(q.caller.unwrap_or(0));
        Answer {
            offset: self.top_start(),
            ..Answer::default()
        }
    }

    /// Restore 9, 4, 8.
    pub(super) fn restore(&self) -> Answer {
        if self.broken(1) {
            return Answer::of(9);
        }
        let Some(top) = self.top() else {
            return Answer::of(4);
        };
        let Some(instance) = self.state.current else {
            return Answer::of(8);
        };
        Answer {
            offset: top.start,
            ip: top.ip,
            instance,
            regs: self.state.regs,
            ..Answer::default()
        }
    }

    /// Reset gives only 9, and reads no frame.
    pub(super) fn reset(&mut self) -> Answer {
        if self.broken(0) {
            return Answer::of(9);
        }
        self.state.count = 0;
        self.state.len = 0;
        self.state.current = None;
        self.state.regs = Regs::default();
        Answer::of(0)
    }

    /// Set 9, 4, 7.
    pub(super) fn set(&mut self, q: &Request) -> Answer {
        if self.broken(1) {
            return Answer::of(9);
        }
        if self.state.count == 0 {
            return Answer::of(4);
        }
        let index = self.top_start() + u64::from(q.head);
        if index >= self.state.len {
            return Answer::of(7);
        }
        self.cells[index as usize] = q.callee;
        Answer {
            offset: index,
            ..Answer::default()
        }
    }
}
