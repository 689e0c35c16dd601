//! Rounds: in each every party has its turn, from a reset, and all have to end alike.

use super::clock;
use super::side::End;
use super::trace::Trace;
use super::ways::Party;
use std::time::Duration;

/// The times of each party, by round. Every other round goes backwards. The first one does, and is not timed: so ours goes before the Rust,
/// which has no answer to what is refused.
pub fn times(parties: &mut [Party], trace: &Trace, rounds: u64) -> Result<Vec<Vec<Duration>>, String> {
    round(parties, trace, true)?;
    let mut times = vec![Vec::new(); parties.len()];
    for number in 0..rounds {
        let turns = round(parties, trace, number % 2 == 1)?;
        times.iter_mut().zip(turns).for_each(|(all, time)| all.push(time));
    }
    Ok(times)
}

/// How long the turn of each party took.
fn round(parties: &mut [Party], trace: &Trace, backwards: bool) -> Result<Vec<Duration>, String> {
    let turns: Result<Vec<_>, String> = match backwards {
        false => parties.iter_mut().map(|party| turn(party, trace)).collect(),
        true => parties.iter_mut().rev().map(|party| turn(party, trace)).collect(),
    };
    let mut turns = turns?;
    if backwards {
        turns.reverse();
    }
    alike(parties, &turns)?;
    Ok(turns.into_iter().map(|(_, time)| time).collect())
}

fn turn(party: &mut Party, trace: &Trace) -> Result<(End, Duration), String> {
    party.side.reset();
    let begin = clock::of_thread();
    let end = party.side.run(trace);
    let time = clock::of_thread() - begin;
    Ok((end.map_err(|why| format!("{}: {why}", party.name))?, time))
}

fn alike(parties: &[Party], turns: &[(End, Duration)]) -> Result<(), String> {
    let (first, _) = &turns[0];
    let other = turns.iter().position(|(end, _)| !end.agrees(first));
    other.map_or(Ok(()), |at| {
        Err(format!(
            "{} ends with {:?}, {} with {first:?}",
            parties[at].name, turns[at].0, parties[0].name
        ))
    })
}
