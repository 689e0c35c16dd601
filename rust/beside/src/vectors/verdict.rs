//! What the entries show: all mutations that can be shown are, and the others are listed with the reason.

use super::ledger::{Ledger, Mutation};
use super::reasons::reason;
use std::collections::BTreeMap;

/// The nine kinds, opening, register sync and host part.
const LISTS: usize = 12;

/// The mutations that are neither shown nor given a reason.
pub fn open_ends(ledger: &Ledger) -> Vec<Mutation> {
    let open = |mutation: &Mutation| !ledger.has_killed(mutation) && reason(mutation).is_none();
    ledger.all().into_iter().filter(open).collect()
}

/// How many there are to show; an error names those that are not, and those that are though they should not be.
pub fn shown(ledger: &Ledger) -> Result<usize, String> {
    let contradicts = |mutation: &Mutation| ledger.has_killed(mutation) && reason(mutation).is_some();
    let (open, all) = (open_ends(ledger), ledger.all());
    let wrong: Vec<String> = all
        .iter()
        .filter(|mutation| contradicts(mutation))
        .chain(&open)
        .map(named)
        .collect();
    if ledger.lists() != LISTS || !wrong.is_empty() {
        return Err(format!(
            "of {} lists, not shown or wrongly excused: {}",
            ledger.lists(),
            wrong.join("; ")
        ));
    }
    Ok(all.iter().filter(|mutation| reason(mutation).is_none()).count())
}

/// Those that cannot be shown, by reason.
pub fn excused(ledger: &Ledger) -> String {
    let mut by_reason: BTreeMap<&str, Vec<String>> = BTreeMap::new();
    for mutation in ledger.all() {
        reason(&mutation)
            .into_iter()
            .for_each(|why| by_reason.entry(why).or_default().push(named(&mutation)));
    }
    let line = |(reason, named): (&&str, &Vec<String>)| format!("not shown, {}: {reason}\n    {}\n", named.len(), named.join("; "));
    let same = format!("not shown, {}: exchanges of two lines of the same number\n", ledger.same_numbers());
    same + &by_reason.iter().map(line).collect::<String>()
}

pub fn named((list, change): &Mutation) -> String {
    format!("{list}: {change}")
}
