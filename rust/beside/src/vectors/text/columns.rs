//! Rows in columns: numbers right-aligned, bars one below the other.
//!
//! Groups at the same place with as many tokens share their columns.

use super::row::Row;
use super::token::Token;
use std::collections::BTreeMap;

/// The longest words have seven letters.
const WORD: usize = 7;

/// Whether the row asks, which of its groups, of how many tokens, and which of them.
type Place = (bool, usize, usize, usize);

struct Columns {
    widths: BTreeMap<Place, usize>,
    /// Where the bar after a group stands, counted from the group's beginning.
    bars: BTreeMap<usize, usize>,
}

/// A line for each row.
pub fn lines(rows: &[Row]) -> Vec<String> {
    let columns = Columns::of(rows);
    rows.iter().map(|row| columns.line(row)).collect()
}

fn place(row: &Row, group: usize, tokens: &[Token], column: usize) -> Place {
    (row.asks(), group, tokens.len(), column)
}

impl Columns {
    fn of(rows: &[Row]) -> Self {
        let mut columns = Self {
            widths: BTreeMap::new(),
            bars: BTreeMap::new(),
        };
        rows.iter().for_each(|row| columns.widen(row));
        rows.iter().filter(|row| row.asks()).for_each(|row| columns.set_bars(row));
        columns
    }

    fn widen(&mut self, row: &Row) {
        for (group, tokens) in row.groups().enumerate() {
            for (column, token) in tokens.iter().enumerate() {
                let width = self.widths.entry(place(row, group, tokens, column)).or_default();
                *width = (*width).max(token.text().len());
            }
        }
    }

    fn set_bars(&mut self, row: &Row) {
        for (group, tokens) in row.groups().enumerate() {
            let wide: usize = (0..tokens.len()).map(|i| self.widths[&place(row, group, tokens, i)] + 1).sum();
            let bar = self.bars.entry(group).or_default();
            *bar = (*bar).max(wide);
        }
    }

    fn line(&self, row: &Row) -> String {
        let groups = row.groups().enumerate().map(|(group, tokens)| self.group(row, group, tokens));
        let groups: Vec<String> = groups.collect();
        format!("{:<WORD$}{}", row.word, groups.join(" |")).trim_end().to_string()
    }

    /// Its tokens, each after a blank.
    fn group(&self, row: &Row, group: usize, tokens: &[Token]) -> String {
        let width = |i: usize| self.widths[&place(row, group, tokens, i)];
        let token = |(i, token): (usize, &Token)| format!(" {:>1$}", token.text(), width(i));
        let text: String = tokens.iter().enumerate().map(token).collect();
        let bar = if row.asks() { self.bars[&group] } else { 0 };
        format!("{text:<bar$}")
    }
}

#[cfg(test)]
mod tests {
    use super::lines;
    use crate::vectors::text::{Row, Token, numbers};

    fn row(word: &'static str, given: &[u64], expected: &[&[u64]]) -> Row {
        Row {
            word,
            given: numbers(given),
            expected: expected.iter().map(|group| numbers(group)).collect(),
        }
    }

    #[test]
    fn numbers_stand_below_each_other_and_bars_too() {
        let rows = [
            Row::of("word", numbers(&[1, 1_000_000])),
            row("open", &[80, 3], &[&[0], &[1, 2], &[]]),
            row("pop", &[0, 12], &[&[14], &[100, 2], &[]]),
            row("set", &[7], &[&[0], &[1, 2], &[]]),
        ];
        let expected = [
            "word    1 0xf4240",
            "open    80  3 |  0 |   1 2 |",
            "pop      0 12 | 14 | 100 2 |",
            "set     7     |  0 |   1 2 |",
        ];
        assert_eq!(lines(&rows), expected);
    }

    #[test]
    fn no_blank_ends_a_line() {
        assert_eq!(lines(&[Row::of("sums", Vec::new())]), ["sums"]);
        let pair = Row::of("state", vec![Token::Pair(0, 0), Token::Pair(1, 4)]);
        assert_eq!(lines(&[pair]), ["state   - 1:4"]);
    }
}
