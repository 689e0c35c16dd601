//! A row: a word, what is given, and the groups that are expected.

use super::token::Token;

/// A line has fewer tokens than this: its word, its bars and its numbers.
const TOKENS: usize = 512;

/// What begins with these words answers something else than an answer's number.
const UNNUMBERED: [&str; 4] = ["into", "from", "replay", "finish"];

#[derive(Clone, Debug, PartialEq, Eq)]
pub struct Row {
    pub word: &'static str,
    pub given: Vec<Token>,
    pub expected: Vec<Vec<Token>>,
}

impl Row {
    /// A row that expects nothing.
    pub fn of(word: &'static str, given: Vec<Token>) -> Self {
        Self {
            word,
            given,
            expected: Vec::new(),
        }
    }

    /// Whether something is expected.
    pub fn asks(&self) -> bool {
        !self.expected.is_empty()
    }

    /// What is given, then what is expected.
    pub fn groups(&self) -> impl Iterator<Item = &Vec<Token>> {
        std::iter::once(&self.given).chain(&self.expected)
    }

    /// How many numbers are compared.
    pub fn compared(&self) -> usize {
        self.expected.iter().flatten().map(|token| token.numbers().len()).sum()
    }

    /// The answer's number; nothing where none is asked for.
    pub fn number(&self) -> Option<u64> {
        let answer = self.expected.first().filter(|_| !UNNUMBERED.contains(&self.word))?;
        answer.first()?.numbers().first().copied()
    }

    /// Why no line can say it.
    pub fn fault(&self) -> Option<String> {
        let tokens = || self.groups().flatten();
        let count = 1 + self.expected.len() + tokens().map(|token| token.numbers().len()).sum::<usize>();
        if count >= TOKENS {
            return Some(format!("{} has {count} tokens", self.word));
        }
        let taken = tokens().find(|token| token.is_taken())?;
        Some(format!("{} has the number {}", self.word, taken.text()))
    }
}

#[cfg(test)]
mod tests {
    use super::Row;
    use crate::vectors::text::{Token, numbers};

    fn row(word: &'static str, expected: Vec<Vec<Token>>) -> Row {
        Row {
            word,
            given: numbers(&[5, 6]),
            expected,
        }
    }

    #[test]
    fn what_is_expected_is_counted() {
        let expected = vec![numbers(&[4, 0]), vec![Token::Pair(0, 0)], vec![Token::Number(2)]];
        let asked = row("pop", expected);
        assert_eq!((asked.compared(), asked.number(), asked.asks()), (5, Some(4), true));
        assert_eq!(row("into", vec![numbers(&[4])]).number(), None);
        let laid = row("word", Vec::new());
        assert_eq!((laid.compared(), laid.number(), laid.asks()), (0, None, false));
    }

    #[test]
    fn too_many_tokens_are_a_fault() {
        let with = |cells: usize| row("pop", vec![numbers(&vec![0; cells])]);
        assert_eq!(
            (with(507).fault(), with(508).fault()),
            (None, Some("pop has 512 tokens".to_string()))
        );
        let taken = row("pop", vec![numbers(&[0x2121_2121_2121_2121])]);
        assert!(taken.fault().is_some());
    }
}
