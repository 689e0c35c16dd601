//! Makes a failing case as small as it finds: fewer steps, shorter traces, lower numbers.

use crate::case::{Case, Row, Start, text};
use crate::drive::Failure;
use crate::party::Table;
use std::panic;

/// A row, and which of its numbers.
type Place = (usize, usize);

/// The height limit and the cells lent, in the row of an opening.
const BYTES: Place = (0, 0);
const CELLS: Place = (0, 3);
/// Which numbers of a given state say how many words and cells are lent.
const WORDS_SAID: usize = 2;
const CELLS_SAID: usize = 3;
/// By how much buffers and limits are lowered, long strides first.
const STRIDES: [usize; 6] = [65_536, 4096, 256, 16, 4, 1];

/// What differs, shrunk, with the case as `beside again` takes it.
pub fn told(failure: Failure) -> String {
    let small = shrunk(failure);
    format!(
        "{}\n`beside again` takes this on standard input:\n{}",
        small.why,
        text(&small.case.rows())
    )
}

/// The smallest case found that still fails, with what differs in it.
fn shrunk(failure: Failure) -> Failure {
    let hook = panic::take_hook();
    panic::set_hook(Box::new(|_| {}));
    let rows = failure.case.rows();
    let mut found = Found { rows, why: failure.why };
    while found.smaller() {}
    panic::set_hook(hook);
    let case = Box::new(Case::of(&found.rows).expect("it was a case all along"));
    Failure { case, why: found.why }
}

/// Runs a case: what differs in it, if anything.
fn difference(case: &Case) -> Option<String> {
    let mut table = match Table::new(&case.start) {
        Ok(table) => table?,
        Err(why) => return Some(why),
    };
    case.steps.iter().find_map(|step| table.take(step).err())
}

struct Found {
    rows: Vec<Row>,
    why: String,
}

impl Found {
    /// One round of everything: whether any of it helped.
    fn smaller(&mut self) -> bool {
        let shorter = self.drop_steps() | self.shorten_traces() | self.shorten_buffers();
        shorter | self.lower_numbers() | self.lower_with_limits()
    }

    /// Takes smaller rows if they still fail.
    fn take(&mut self, rows: Vec<Row>) -> bool {
        let Some(why) = Case::of(&rows).and_then(|case| difference(&case)) else {
            return false;
        };
        *self = Self { rows, why };
        true
    }

    /// Takes the rows with some numbers lowered, if none falls below 0 and they still fail.
    fn take_lowered(&mut self, by: &[(Place, u64)]) -> bool {
        let mut rows = self.rows.clone();
        let mut lower = |((row, i), by): &(Place, u64)| {
            let number = &mut rows[*row].numbers[*i];
            let enough = *number >= *by;
            *number = number.wrapping_sub(*by);
            enough
        };
        by.iter().all(&mut lower) && self.take(rows)
    }

    /// How many rows say how the stack comes to be.
    fn start_rows(&self) -> usize {
        let case = Case::of(&self.rows);
        let given = matches!(
            case,
            Some(Case {
                start: Start::Given { .. },
                ..
            })
        );
        if given { 3 } else { 1 }
    }

    /// Where there are numbers.
    fn places(&self) -> Vec<Place> {
        let of_row = |(row, r): (usize, &Row)| (0..r.numbers.len()).map(move |i| (row, i)).collect::<Vec<_>>();
        self.rows.iter().enumerate().flat_map(of_row).collect()
    }

    /// Drops runs of steps, long ones first.
    fn drop_steps(&mut self) -> bool {
        let first = self.start_rows();
        let mut dropped = false;
        let mut length = self.rows.len() - first;
        while length > 0 {
            dropped |= self.drop_runs(first, length);
            length /= 2;
        }
        dropped
    }

    fn drop_runs(&mut self, first: usize, length: usize) -> bool {
        let (mut at, mut dropped) = (first, false);
        while at + length <= self.rows.len() {
            let fewer = [&self.rows[..at], &self.rows[at + length..]].concat();
            let taken = self.take(fewer);
            dropped |= taken;
            at += if taken { 0 } else { length };
        }
        dropped
    }

    /// Drops bytes from the end of each trace, whole records first.
    fn shorten_traces(&mut self) -> bool {
        let steps = self.start_rows()..self.rows.len();
        let choices = steps.flat_map(|row| [(row, 40), (row, 1)]);
        choices.fold(false, |shorter, (row, by)| shorter | self.repeat(|found| found.take_cut(row, by)))
    }

    fn take_cut(&mut self, row: usize, by: usize) -> bool {
        let mut rows = self.rows.clone();
        let Some(length) = rows[row]
            .numbers
            .len()
            .checked_sub(by)
            .filter(|length| *length >= rows[row].named())
        else {
            return false;
        };
        rows[row].numbers.truncate(length);
        self.take(rows)
    }

    fn lower_numbers(&mut self) -> bool {
        let places = self.places();
        places.into_iter().fold(false, |lowered, place| lowered | self.lower(place))
    }

    /// Lowers one number as far as it goes: to 0, 1, its half, or by one.
    fn lower(&mut self, place: Place) -> bool {
        self.repeat(|found| {
            let number = found.rows[place.0].numbers[place.1];
            let lower = [0, 1, number / 2, number.wrapping_sub(1)];
            lower
                .into_iter()
                .filter(|n| *n < number)
                .any(|n| found.take_lowered(&[(place, number - n)]))
        })
    }

    /// Lowers a step's number together with a limit of the opening, or with both.
    fn lower_with_limits(&mut self) -> bool {
        if self.rows[0].word != "open" {
            return false;
        }
        let numbers: Vec<Place> = self.places().into_iter().filter(|(row, _)| *row > 0).collect();
        numbers.into_iter().fold(false, |lowered, number| {
            [&[BYTES][..], &[CELLS], &[BYTES, CELLS]]
                .iter()
                .fold(lowered, |lowered, limits| lowered | self.lower_together(number, limits))
        })
    }

    /// A cell is 8 bytes of the height.
    fn lower_together(&mut self, number: Place, limits: &[Place]) -> bool {
        let by = |cells| {
            let limits = limits
                .iter()
                .map(move |limit| (*limit, if *limit == BYTES { 8 * cells } else { cells }));
            limits.chain([(number, cells)]).collect::<Vec<(Place, u64)>>()
        };
        STRIDES.into_iter().fold(false, |lowered, cells| {
            lowered | self.repeat(|found| found.take_lowered(&by(cells as u64)))
        })
    }

    /// Shortens the words and the cells of a given state, with the lengths that the state says.
    fn shorten_buffers(&mut self) -> bool {
        if self.rows[0].word != "state" {
            return false;
        }
        let choices = [(1, WORDS_SAID), (2, CELLS_SAID)]
            .into_iter()
            .flat_map(|buffer| STRIDES.map(|by| (buffer, by)));
        choices.fold(false, |shorter, ((row, said), by)| {
            shorter | self.repeat(|found| found.take_shorter(row, said, by))
        })
    }

    fn take_shorter(&mut self, row: usize, said: usize, by: usize) -> bool {
        let mut rows = self.rows.clone();
        let (Some(length), Some(lower)) = (
            rows[row].numbers.len().checked_sub(by),
            rows[0].numbers[said].checked_sub(by as u64),
        ) else {
            return false;
        };
        rows[row].numbers.truncate(length);
        rows[0].numbers[said] = lower;
        self.take(rows)
    }

    /// Does it as long as it helps: whether it ever did.
    fn repeat(&mut self, mut step: impl FnMut(&mut Self) -> bool) -> bool {
        let mut helped = false;
        while step(self) {
            helped = true;
        }
        helped
    }
}
