//! A line that asks, as it is told: what the archive finds has to be what is expected.

use super::{Made, Maker};
use crate::plain::{Answer, Flagged, State, anew};
use crate::reading::Reading;
#[cfg(target_arch = "x86_64")]
use crate::vectors::archive::difference;
use crate::vectors::buffers::{FIRST_WORDS, sum_of};
use crate::vectors::call::{Call, host, registers};
use crate::vectors::desk::Desk;
use crate::vectors::text::{Row, Token, numbers};

/// The archive is for x86-64.
#[cfg(not(target_arch = "x86_64"))]
fn difference(_: &Call, _: Desk, _: &[u64], _: &Desk) -> Option<String> {
    None
}

impl Maker {
    /// An answer: a refusal leaves the current instance told as it was.
    pub(super) fn tell_answered(&mut self, call: &Call, answer: &Answer, world: Reading) -> Made<()> {
        let current = if answer.accepted() {
            anew(world.state.current)
        } else {
            self.current
        };
        self.tell(call, answer_tokens(answer), world, current)
    }

    /// A line on the stack: the world is this from then on, and told, the current instance so.
    pub(super) fn tell(&mut self, call: &Call, answer: Vec<Token>, world: Reading, current: Flagged) -> Made<()> {
        let (trace, tape) = (self.trace.clone(), self.tape);
        let after = Desk {
            world,
            current,
            trace,
            tape,
        };
        self.tell_after(call, answer, &after)
    }

    /// A line on the stack and the tape: the desk is this from then on, but for the trace.
    pub(super) fn tell_after(&mut self, call: &Call, answer: Vec<Token>, after: &Desk) -> Made<()> {
        self.compare(call, &answer, after)?;
        (self.state, self.current, self.tape) = (after.world.state, after.current, after.tape);
        self.words[..self.lent.0].copy_from_slice(&after.world.words);
        self.cells[..self.lent.1].copy_from_slice(&after.world.cells);
        let state = state_tokens(&self.state, self.current);
        let expected = vec![answer, state, self.words_told(), self.cells_told()];
        self.put(call, expected);
        Ok(())
    }

    /// A line on the trace or on a leaf: only the answer is told.
    pub(super) fn tell_answer(&mut self, call: &Call, answer: Vec<Token>, trace: Vec<u8>) -> Made<()> {
        let after = Desk { trace, ..self.desk() };
        self.compare(call, &answer, &after)?;
        self.trace = after.trace;
        self.put(call, vec![answer]);
        Ok(())
    }

    fn compare(&self, call: &Call, answer: &[Token], after: &Desk) -> Made<()> {
        let answer: Vec<u64> = answer.iter().flat_map(Token::numbers).collect();
        let differs = difference(call, self.desk(), &answer, after);
        differs.map_or(Ok(()), |why| Err(format!("{call:?} on {:?}: {why}", self.state)))
    }

    fn put(&mut self, call: &Call, expected: Vec<Vec<Token>>) {
        self.book.put(Row {
            word: call.word(),
            given: call.given(),
            expected,
        });
    }

    fn words_told(&self) -> Vec<Token> {
        let lent = &self.words[..self.lent.0];
        if self.sums {
            let first = &lent[..lent.len().min(FIRST_WORDS)];
            return numbers(&[sum_of(first)]);
        }
        numbers(lent)
    }

    fn cells_told(&self) -> Vec<Token> {
        let lent = &self.cells[..self.lent.1];
        if self.sums {
            return numbers(&[sum_of(lent)]);
        }
        numbers(lent)
    }
}

/// An answer's eleven numbers.
pub fn answer_tokens(answer: &Answer) -> Vec<Token> {
    let first = [answer.number, answer.offset, answer.ip, answer.instance];
    [numbers(&first), numbers(&host(&answer.host)), registers(&answer.regs)].concat()
}

/// A state's eleven numbers, two of them its current instance.
pub fn state_tokens(s: &State, current: Flagged) -> Vec<Token> {
    let sizes = [s.depth, s.height, s.words, s.cells, s.count, s.len];
    [numbers(&sizes), vec![Token::pair(current)], registers(&s.regs)].concat()
}

#[cfg(test)]
mod tests {
    use crate::example::{NOTHING, P};
    use crate::plain::Request;
    use crate::vectors::maker::Maker;

    const SET: Request = Request {
        kind: 9,
        head: 1,
        callee: 9,
        ..NOTHING
    };

    /// The lines of a small file, without its first comment.
    fn made(lines: impl FnOnce(&mut Maker)) -> String {
        let mut maker = Maker::new();
        maker.file("small", "small");
        lines(&mut maker);
        let files = maker.book.files().expect("no fault");
        files[0].text.replace("# small\n", "")
    }

    #[test]
    fn in_full_every_word_and_every_cell() {
        let text = made(|maker| {
            maker.open([80, 1, 4, 3]).expect("all agree");
            maker.ask(&P).expect("all agree");
            maker.ask(&Request { slots: 3, ..P }).expect("all agree");
        });
        let lines = [
            "open    80 1 4 3            | 0 0 0 0 0 0 0 0 0 0 0 | 1 10 4 3 0 0   - 0 0 0 | 1000 1001 1002 1003 | 2000 2001 2002",
            "push    0 0 2 4 0 - 100 1:1 | 3 0 0 0 0 0 0 0 0 0 0 | 1 10 4 3 0 0   - 0 0 0 | 1000 1001 1002 1003 | 2000 2001 2002",
            "push    0 0 2 3 0 - 100 1:1 | 0 0 0 0 0 0 0 0 0 0 0 | 1 10 4 3 1 3 1:1 0 0 0 |  100    0    0    0 |    0    0 2002",
        ];
        assert_eq!(text, lines.join("\n") + "\n");
    }

    #[test]
    fn by_sums_a_number_for_each_buffer() {
        let text = made(|maker| {
            maker.sums();
            maker.open([80, 1, 4, 4]).expect("all agree");
            maker.ask(&P).expect("all agree");
            maker.ask(&SET).expect("all agree");
            maker.give_cell(2, 7);
            maker.ask(&SET).expect("all agree");
        });
        let words = 1000 + 3 * 1001 + 5 * 1002 + 7 * 1003;
        let [opened, pushed, set, given] = [[2000, 2001, 2002], [0, 0, 2002], [0, 9, 2002], [0, 9, 7]]
            .map(|[first, second, third]: [u64; 3]| first + 3 * second + 5 * third + 7 * 2003);
        let lines = [
            "sums".to_string(),
            format!("open    80 1 4 4            | 0 0 0 0 0 0 0 0 0 0 0 | 1 10 4 4 0 0   - 0 0 0 | {words} | {opened}"),
            format!("push    0 0 2 4 0 - 100 1:1 | 0 0 0 0 0 0 0 0 0 0 0 | 1 10 4 4 1 4 1:1 0 0 0 |   100 | {pushed}"),
            format!("set     1 0 0 0 0 -   9   - | 0 1 0 0 0 0 0 0 0 0 0 | 1 10 4 4 1 4 1:1 0 0 0 |   100 | {set}"),
            "cell    2 7".to_string(),
            format!("set     1 0 0 0 0 -   9   - | 0 1 0 0 0 0 0 0 0 0 0 | 1 10 4 4 1 4 1:1 0 0 0 |   100 | {given}"),
        ];
        assert_eq!(text, lines.join("\n") + "\n");
    }
}
