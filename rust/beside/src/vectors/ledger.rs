//! The mutations of the refusal lists, and which of them an entry has shown: one whose answer is another with the list so changed.

use super::line::{Line, Slip};
use super::lists::List;
use std::collections::{BTreeMap, BTreeSet};
use std::fmt;

/// A change of a list, by the causes of its lines.
#[derive(Clone, Copy, Debug, PartialEq, Eq, PartialOrd, Ord)]
pub enum Change {
    Dropped(&'static str),
    /// The later of the two comes before the earlier: both hold, nothing before them does, and the numbers are two.
    Exchanged(&'static str, &'static str),
    Slipped(&'static str, Slip),
}

/// A change of the list of that name.
pub type Mutation = (&'static str, Change);

impl fmt::Display for Change {
    fn fmt(&self, f: &mut fmt::Formatter) -> fmt::Result {
        match self {
            Self::Dropped(cause) => write!(f, "'{cause}' dropped"),
            Self::Exchanged(earlier, later) => write!(f, "'{later}' before '{earlier}'"),
            Self::Slipped(cause, slip) => write!(f, "'{cause}' {slip}"),
        }
    }
}

#[derive(Default)]
pub struct Ledger {
    lists: BTreeMap<&'static str, Vec<Line>>,
    killed: BTreeSet<Mutation>,
}

impl Ledger {
    /// Counts an entry's list.
    pub fn add(&mut self, (name, lines): &List) {
        self.killed.extend(kills(lines).into_iter().map(|change| (*name, change)));
        self.lists.entry(*name).or_insert_with(|| lines.clone());
    }

    /// The mutations that this list would show and that are not shown yet.
    pub fn new_kills(&self, (name, lines): &List) -> Vec<Mutation> {
        let mutations = kills(lines).into_iter().map(|change| (*name, change));
        mutations.filter(|mutation| !self.killed.contains(mutation)).collect()
    }

    pub fn has_killed(&self, mutation: &Mutation) -> bool {
        self.killed.contains(mutation)
    }

    /// All mutations of the lists seen.
    pub fn all(&self) -> Vec<Mutation> {
        let of = |(name, lines): (&&'static str, &Vec<Line>)| changes(lines).into_iter().map(|change| (*name, change)).collect::<Vec<_>>();
        self.lists.iter().flat_map(of).collect()
    }

    pub fn lists(&self) -> usize {
        self.lists.len()
    }

    /// How many exchanges of two lines there are that change nothing, since both have the same number.
    pub fn same_numbers(&self) -> usize {
        let pairs = |lines: &Vec<Line>| lines.len() * (lines.len() - 1) / 2;
        self.lists.values().map(|lines| pairs(lines) - exchanges(lines).len()).sum()
    }
}

/// Every change that can be made to a list and told by its numbers.
fn changes(lines: &[Line]) -> Vec<Change> {
    let mut all = exchanges(lines);
    for line in lines {
        all.push(Change::Dropped(line.cause));
        all.extend(line.slips.iter().map(|(slip, _)| Change::Slipped(line.cause, slip)));
    }
    all
}

/// Every two lines of different numbers.
fn exchanges(lines: &[Line]) -> Vec<Change> {
    let later = |i: usize| lines[i + 1..].iter().filter(move |line| line.number != lines[i].number);
    let of = |i: usize| later(i).map(move |line| Change::Exchanged(lines[i].cause, line.cause));
    (0..lines.len()).flat_map(of).collect()
}

/// The changes that this list shows.
fn kills(lines: &[Line]) -> Vec<Change> {
    let decides = lines.iter().position(|line| line.holds);
    let answer = decides.map_or(0, |i| lines[i].number);
    let mut shown = Vec::new();
    if let Some(i) = decides {
        let others = lines[i + 1..].iter().filter(|line| line.holds && line.number != answer);
        shown.extend(others.map(|line| Change::Exchanged(lines[i].cause, line.cause)));
        shown.extend((answer_with(lines, i, false) != answer).then_some(Change::Dropped(lines[i].cause)));
    }
    for (i, line) in lines.iter().enumerate() {
        let slips = line.slips.iter().filter(|(_, holds)| answer_with(lines, i, *holds) != answer);
        shown.extend(slips.map(|(slip, _)| Change::Slipped(line.cause, slip)));
    }
    shown
}

/// The answer where one line holds, or does not.
fn answer_with(lines: &[Line], changed: usize, holds: bool) -> u64 {
    let holding = |(i, line): &(usize, &Line)| if *i == changed { holds } else { line.holds };
    lines.iter().enumerate().find(holding).map_or(0, |(_, line)| line.number)
}

#[cfg(test)]
mod tests {
    use super::{Change, Ledger, changes, kills};
    use crate::vectors::line::{HIGHER, LOWER, Line};

    /// Two causes of 9 and one of 4.
    fn lines([a, b, c]: [bool; 3]) -> Vec<Line> {
        vec![Line::when("a", 9, a), Line::when("b", 9, b), Line::when("c", 4, c)]
    }

    #[test]
    fn a_line_is_shown_alone_and_an_order_by_two() {
        assert_eq!(kills(&lines([false, false, false])), []);
        assert_eq!(kills(&lines([true, false, false])), [Change::Dropped("a")]);
        assert_eq!(kills(&lines([true, true, false])), []);
        assert_eq!(
            kills(&lines([false, true, true])),
            [Change::Exchanged("b", "c"), Change::Dropped("b")]
        );
        assert_eq!(changes(&lines([false; 3])).len(), 5);
    }

    #[test]
    fn a_bound_is_shown_at_it_and_one_above_it() {
        let line = |found| vec![Line::above("a", 2, found, 7)];
        assert_eq!(kills(&line(6)), []);
        assert_eq!(kills(&line(7)), [Change::Slipped("a", LOWER)]);
        assert_eq!(kills(&line(8)), [Change::Dropped("a"), Change::Slipped("a", HIGHER)]);
        assert_eq!(kills(&line(9)), [Change::Dropped("a")]);
    }

    #[test]
    fn what_is_counted_is_new_once() {
        let mut ledger = Ledger::default();
        let list = ("list", lines([true, false, true]));
        assert_eq!(ledger.new_kills(&list).len(), 2);
        ledger.add(&list);
        assert_eq!(
            (ledger.new_kills(&list).len(), ledger.all().len(), ledger.same_numbers()),
            (0, 5, 1)
        );
    }
}
