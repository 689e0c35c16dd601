//! Host, return-host and the host part.

use super::Reading;
use crate::plain::{Answer, HostFrame, Request};

impl Reading {
    /// Host 9, 4, 2, 3.
    pub(super) fn host(&mut self, q: &Request) -> Answer {
        if self.broken(1) {
            return Answer::of(9);
        }
        if q.caller.is_some() && self.state.count == 0 {
            return Answer::of(4);
        }
        let start = self.top_start() + u64::from(q.head);
        let end = start + larger(q.params, q.results);
        let growth = self.growth(end);
        if growth != 0 {
            return Answer::of(growth);
        }
        if let Some(ip) = q.caller {
            self.put_ip(ip);
        }
        self.grow(end);
        let host = HostFrame {
            start,
            end,
            params: q.params,
            results: q.results,
        };
        Answer {
            offset: self.top_start(),
            host,
            ..Answer::default()
        }
    }

    pub(super) fn return_host(&mut self, q: &Request) -> Answer {
        match self.return_host_refusal(q) {
            0 => self.returned_to_host(q),
            number => Answer::of(number),
        }
    }

    /// Return-host 9, 4, 7, 2, 3. The parameters must lie below `len` as it is before growth.
    fn return_host_refusal(&self, q: &Request) -> u64 {
        if self.broken(2) {
            return 9;
        }
        let Some(top) = self.top() else {
            return 4;
        };
        if larger(q.params, q.results) == 0 {
            return 0;
        }
        if top.start + u64::from(q.head) + u64::from(q.params) > self.state.len {
            return 7;
        }
        self.growth(top.start + larger(q.params, q.results))
    }

    fn returned_to_host(&mut self, q: &Request) -> Answer {
        let start = self.top_start();
        let answer = self.popped(q.instance.unwrap_or(0));
        let size = larger(q.params, q.results);
        if size == 0 {
            return answer;
        }
        self.copy(start + u64::from(q.head), start, u64::from(q.params));
        self.grow(start + size);
        Answer {
            host: HostFrame {
                start,
                end: start + size,
                params: q.params,
                results: q.results,
            },
            ..answer
        }
    }

    /// Host part 9, 11. A frame with both counts 0 gets the empty part.
    pub fn host_part(&self, frame: &HostFrame) -> Answer {
        if self.broken(0) {
            return Answer::of(9);
        }
        let size = larger(frame.params, frame.results);
        if size == 0 {
            return Answer::of(0);
        }
        if frame.end > self.state.len || frame.end < frame.start || frame.end - frame.start != size {
            return Answer::of(11);
        }
        Answer {
            offset: frame.start,
            part: (u64::from(frame.params), size),
            ..Answer::default()
        }
    }
}

fn larger(params: u16, results: u16) -> u64 {
    u64::from(params.max(results))
}
