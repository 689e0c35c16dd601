//! A case as rows of numbers, a row a line: a word, then numbers, each after its name. Reading back, names may be left out.

use super::numbers::{self, Numbers};
use super::{Case, Start, Step, Task};
use crate::plain::KINDS;

/// A line of a case.
#[derive(Clone, Debug, PartialEq, Eq)]
pub struct Row {
    pub word: &'static str,
    pub numbers: Vec<u64>,
}

/// The words that a line may begin with, beside the nine kinds.
const WORDS: [&str; 9] = ["open", "state", "words", "cells", "registers", "part", "read", "write", "replay"];

/// The names of a row's first numbers; what has none is a list.
fn names(word: &str) -> Vec<&'static str> {
    match word {
        "open" => numbers::OPEN.to_vec(),
        "state" => numbers::STATE.to_vec(),
        "registers" => numbers::REGS.to_vec(),
        "part" => numbers::PART.to_vec(),
        "read" => vec!["at"],
        "write" => [&["at", "kind"][..], &numbers::REQUEST].concat(),
        "replay" => numbers::REPLAY.to_vec(),
        _ => kind_of(word).map_or(Vec::new(), |kind| {
            numbers::USED[kind].iter().map(|n| numbers::REQUEST[*n]).collect()
        }),
    }
}

/// The kind of a word, from 0.
fn kind_of(word: &str) -> Option<usize> {
    KINDS.iter().position(|kind| *kind == word)
}

impl Row {
    /// How many numbers are named; those after them are a list that may be shorter.
    pub fn named(&self) -> usize {
        names(self.word).len()
    }

    fn of(word: &'static str, numbers: impl Into<Vec<u64>>) -> Self {
        Self {
            word,
            numbers: numbers.into(),
        }
    }
}

impl Case {
    pub fn rows(&self) -> Vec<Row> {
        let mut rows = match &self.start {
            Start::Open(opening) => vec![Row::of("open", opening.numbers())],
            Start::Given { state, words, cells } => {
                vec![
                    Row::of("state", state.numbers()),
                    Row::of("words", words.clone()),
                    Row::of("cells", cells.clone()),
                ]
            }
        };
        rows.extend(self.steps.iter().map(step_row));
        rows
    }

    /// The case of some rows; nothing where they are none.
    pub fn of(rows: &[Row]) -> Option<Self> {
        let (start, steps) = match rows {
            [open, steps @ ..] if open.word == "open" => (Start::Open(Numbers::of(&open.numbers)?), steps),
            [state, words, cells, steps @ ..] if (state.word, words.word, cells.word) == ("state", "words", "cells") => (
                Start::Given {
                    state: Numbers::of(&state.numbers)?,
                    words: words.numbers.clone(),
                    cells: cells.numbers.clone(),
                },
                steps,
            ),
            _ => return None,
        };
        Some(Self {
            start,
            steps: steps.iter().map(step_of).collect::<Option<_>>()?,
        })
    }
}

/// The rows as lines. In a list, `0*5` is five zeros.
pub fn text(rows: &[Row]) -> String {
    let line = |row: &Row| {
        let (named, list) = row.numbers.split_at(row.named());
        let names = names(row.word)
            .into_iter()
            .zip(named)
            .map(|(name, number)| format!(" {name} {number}"));
        let runs = list.chunk_by(|one, next| one == next).map(|run| match run {
            [number] => format!(" {number}"),
            run => format!(" {}*{}", run[0], run.len()),
        });
        format!("{}{}\n", row.word, names.chain(runs).collect::<String>())
    };
    rows.iter().map(line).collect()
}

/// The case that some lines show; empty lines are passed over.
pub fn parse(text: &str) -> Option<Case> {
    let lines = text.lines().filter(|line| !line.trim().is_empty());
    Case::of(&lines.map(row_of).collect::<Option<Vec<_>>>()?)
}

fn row_of(line: &str) -> Option<Row> {
    let mut tokens = line.split_whitespace();
    let first = tokens.next()?;
    let word = *WORDS.iter().chain(&KINDS).find(|word| **word == first)?;
    Some(Row {
        word,
        numbers: tokens.flat_map(run_of).collect(),
    })
}

/// A number, or a run of them; none for a name.
fn run_of(token: &str) -> Vec<u64> {
    let (number, times) = token.split_once('*').unwrap_or((token, "1"));
    let run = number.parse().ok().zip(times.parse().ok());
    run.map_or(Vec::new(), |(number, times)| vec![number; times])
}

fn step_row(step: &Step) -> Row {
    match step {
        Step::Ask(q) => {
            let (kind, all) = (q.kind as usize - 1, q.numbers());
            let used: Vec<u64> = numbers::USED[kind].iter().map(|i| all[1 + i]).collect();
            Row::of(KINDS[kind], used)
        }
        Step::Registers(regs) => Row::of("registers", regs.numbers()),
        Step::Part { frame, write } => Row::of("part", (*frame, *write).numbers()),
        Step::Trace(task, bytes) => task_row(task, bytes),
    }
}

fn task_row(task: &Task, bytes: &[u8]) -> Row {
    let (word, mut numbers) = match task {
        Task::Read(at) => ("read", vec![*at]),
        Task::Write(at, spelt) => ("write", [vec![*at], spelt.numbers()].concat()),
        Task::Replay(run) => ("replay", run.numbers()),
    };
    numbers.extend(bytes.iter().map(|byte| u64::from(*byte)));
    Row { word, numbers }
}

fn step_of(row: &Row) -> Option<Step> {
    match row.word {
        "registers" => Some(Step::Registers(Numbers::of(&row.numbers)?)),
        "part" => {
            let (frame, write) = Numbers::of(&row.numbers)?;
            Some(Step::Part { frame, write })
        }
        "read" | "write" | "replay" => task_of(row),
        word => request_of(kind_of(word)?, &row.numbers),
    }
}

fn task_of(row: &Row) -> Option<Step> {
    let (named, bytes) = row.numbers.split_at_checked(row.named())?;
    let task = match row.word {
        "read" => Task::Read(named[0]),
        "write" => Task::Write(named[0], Numbers::of(&named[1..])?),
        _ => Task::Replay(Numbers::of(named)?),
    };
    Some(Step::Trace(
        task,
        bytes.iter().map(|byte| u8::try_from(*byte).ok()).collect::<Option<_>>()?,
    ))
}

/// A sync's ip and the instance of a pop or return-host are always given.
fn request_of(kind: usize, used: &[u64]) -> Option<Step> {
    if used.len() != numbers::USED[kind].len() {
        return None;
    }
    let mut all = [0; 11];
    all[0] = kind as u64 + 1;
    numbers::USED[kind].iter().zip(used).for_each(|(i, number)| all[1 + i] = *number);
    all[6] |= u64::from(kind == 5);
    all[9] |= u64::from(kind == 1 || kind == 4);
    Some(Step::Ask(Numbers::of(&all)?))
}

#[cfg(test)]
mod tests {
    use super::{Case, parse, text};

    const OPENED: &str = "open bytes 80 depth 3 words 12 cells 10 fill 5
push head 0 params 1 locals 2 slots 4 caller-flag 0 caller 0 callee 100 instance-flag 1 instance 7
sync caller 9
return-host head 1 params 2 results 3 instance 4
part start 1 end 3 params 2 results 0 write-flag 1 at 1 cell 5
registers ireg 1 freg32 2 freg64 3
set head 1 callee 3
restore
";
    const GIVEN: &str = "state depth 1 height 2 words 4 cells 2 count 0 len 1 current-flag 1 current 0 ireg 0 freg32 0 freg64 0
words 1 2*3
cells 1 2
read at 1 8 0
write at 0 kind 11 head 1 params 2 locals 3 slots 4 results 5 caller-flag 9 caller 6 callee 7 instance-flag 0 instance 8 255
replay number 1 fuel 2 spent 3 stop-flag 0 cost 0 8 0*2
";

    #[test]
    fn what_is_printed_is_read_back() {
        for lines in [OPENED, GIVEN] {
            let case = parse(lines).expect("a case");
            assert_eq!(text(&case.rows()), lines);
            assert_eq!(Case::of(&case.rows()), Some(case));
        }
    }

    #[test]
    fn names_may_be_left_out_and_nonsense_is_none() {
        assert_eq!(
            parse("open 80 3 12 10 5\npop 7\n"),
            parse("open bytes 80 depth 3 words 12 cells 10 fill 5\npop instance 7")
        );
        for wrong in [
            "",
            "pop 7",
            "open 80 3 12 10",
            "open 80 3 12 10 5\nset 70000 1",
            "open 80 3 12 10 5\npops 1",
        ] {
            assert_eq!(parse(wrong), None, "{wrong}");
        }
    }
}
