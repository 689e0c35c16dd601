//! Random traces over many openings, step by step.

use super::{Failure, Tally, openings, steps, table};
use crate::case::{Start, Step};
use crate::plain::HostFrame;
use crate::rng::Rng;

/// At least so many steps, all from one seed.
pub fn random(seed: u64, count: u64) -> Result<Tally, Failure> {
    let mut tally = Tally::default();
    let mut rng = Rng::new(seed);
    while tally.total() < count {
        one_opening(&mut rng, &mut tally)?;
    }
    Ok(tally)
}

/// One opening and what follows on it, in one mood.
fn one_opening(rng: &mut Rng, tally: &mut Tally) -> Result<(), Failure> {
    let start = Start::Open(openings::any(rng));
    let opened = table(&start)?;
    tally.opening(opened.is_some());
    let Some(mut table) = opened else {
        return Ok(());
    };
    let mood = rng.pick(&steps::MOODS);
    let length = if rng.once_in(16) { rng.range(60, 300) } else { rng.range(1, 60) };
    let (mut done, mut host) = (Vec::new(), HostFrame::default());
    for _ in 0..length {
        let step = steps::next(rng, &mood, &table.reading, &host);
        let hosts = matches!(&step, Step::Ask(q) if q.kind == 4 || q.kind == 5);
        let outcome = table.take(&step);
        done.push(step);
        let answer = outcome.map_err(|why| Failure::new(&start, &done, why))?;
        tally.step(&done[done.len() - 1], answer.number);
        if hosts && answer.accepted() {
            host = answer.host;
        }
    }
    Ok(())
}

#[cfg(test)]
mod tests {
    use super::random;

    #[test]
    fn a_few_random_traces_agree() {
        let tally = random(1, 20_000).map_err(|failure| format!("{failure:?}"));
        assert!(tally.expect("no difference").total() >= 20_000);
    }
}
