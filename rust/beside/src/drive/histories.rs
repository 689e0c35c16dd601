//! ALL histories of small worlds from an alphabet of small requests, up to a length.
//!
//! What is refused changes nothing, which is compared each time, so a history goes on only after what is accepted; and two histories that
//! end alike, in all that is compared and all that decides over what comes, go on as one. Each such end gets every request once.

use super::alphabet::alphabet;
use super::{Failure, Tally, table};
use crate::case::{FRAME_WORDS, Opening, Start, Step};
use crate::party::{Memory, Table};
use std::collections::HashSet;

/// All histories up to a length; as many ends are followed in each world as the budget allows.
pub fn histories(length: usize, ends: usize) -> Result<(Tally, String), Failure> {
    let (mut tally, mut cut) = (Tally::default(), 0);
    let steps = alphabet();
    let worlds = worlds();
    for world in &worlds {
        cut += usize::from(!one_world(world, &steps, length, ends, &mut tally)?);
    }
    let said = format!(
        "{} worlds, {} requests, length {length}, {cut} worlds cut at {ends} ends",
        worlds.len(),
        steps.len()
    );
    Ok((tally, said))
}

/// D up to 3, L up to 5, M one below L to one above it.
fn worlds() -> Vec<Start> {
    let sizes =
        (0..=3).flat_map(|depth| (0..=5).flat_map(move |cells: u64| (cells.saturating_sub(1)..=cells + 1).map(move |m| (depth, cells, m))));
    let open = |(depth, cells, m): (u64, u64, u64)| Opening {
        bytes: 8 * m + 7,
        depth,
        words: FRAME_WORDS * depth,
        cells,
        fill: cells,
    };
    sizes.map(|size| Start::Open(open(size))).collect()
}

/// Whether the whole world was seen, and not only as much as the budget allows.
fn one_world(start: &Start, steps: &[Step], length: usize, ends: usize, tally: &mut Tally) -> Result<bool, Failure> {
    let Some(first) = table(start)? else {
        return Ok(true);
    };
    let mut seen = HashSet::from([first.memory()]);
    let mut level = vec![Vec::new()];
    for _ in 0..length {
        if seen.len() > ends {
            return Ok(false);
        }
        level = longer(start, &level, steps, &mut seen, tally)?;
    }
    Ok(true)
}

type Level = Vec<Vec<Step>>;

/// The histories that are one longer than these and lead somewhere new.
fn longer(start: &Start, level: &Level, steps: &[Step], seen: &mut HashSet<Memory>, tally: &mut Tally) -> Result<Level, Failure> {
    let mut next = Vec::new();
    for history in level {
        next.extend(follow(start, history, steps, seen, tally)?);
    }
    Ok(next)
}

/// Every request at the end of one history: what is accepted and leads somewhere new is a longer one.
fn follow(start: &Start, history: &[Step], steps: &[Step], seen: &mut HashSet<Memory>, tally: &mut Tally) -> Result<Level, Failure> {
    let base = again(start, history)?;
    let mut table = base.copy();
    let mut next = Vec::new();
    for step in steps {
        let longer = || [history, std::slice::from_ref(step)].concat();
        let answer = table.take(step).map_err(|why| Failure::new(start, &longer(), why))?;
        tally.step(step, answer.number);
        if answer.accepted() {
            next.extend(seen.insert(table.memory()).then(longer));
            table = base.copy();
        }
    }
    Ok(next)
}

/// The table after a history that all have taken alike before.
fn again(start: &Start, history: &[Step]) -> Result<Table, Failure> {
    let mut table = table(start)?.expect("it has opened before");
    for step in history {
        table.take(step).map_err(|why| Failure::new(start, history, why))?;
    }
    Ok(table)
}

#[cfg(test)]
mod tests {
    use super::histories;

    #[test]
    fn all_histories_of_two_agree() {
        let (tally, said) = histories(2, usize::MAX)
            .map_err(|failure| format!("{failure:?}"))
            .expect("no difference");
        assert!(tally.total() > 10_000, "{said}");
    }
}
