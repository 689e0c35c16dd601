//! Structs written as records: each flag given or not, each number alone, numbers beside a clear flag. What breaks the rules is 10.

use super::super::claims::expect;
use super::super::records::spelled::fill;
use crate::plain::{KINDS, Straight};
use crate::vectors::maker::{Made, Maker};

const MOST: u64 = u64::MAX;

/// Of each kind, the flags that it may have (1 for the caller ip, 2 for the instance), and the numbers that it uses with its largest.
const RULES: [(&[u64], &[&str]); 9] = [
    (
        &[0, 1, 2, 3],
        &["head", "params", "locals", "slots", "caller", "callee", "instance"],
    ),
    (&[2], &["instance"]),
    (&[0, 2], &["head", "params", "locals", "slots", "callee", "instance"]),
    (&[0, 1], &["head", "params", "results", "caller"]),
    (&[2], &["head", "params", "results", "instance"]),
    (&[0], &["caller"]),
    (&[0], &[]),
    (&[0], &[]),
    (&[0], &["head", "callee"]),
];

const NUMBERS: [&str; 8] = ["head", "params", "locals", "slots", "results", "caller", "callee", "instance"];

pub fn make(maker: &mut Maker) -> Made<()> {
    fill(maker);
    for ((kind, name), (flags, used)) in (1..).zip(KINDS).zip(RULES) {
        maker.says(&format!(
            "{name} spelt by a struct of no numbers: no flag given, the caller's (2), the instance's (2^64 - 1), both"
        ));
        for given in 0..4 {
            written(maker, &spelt(kind, given, None), flags.contains(&given))?;
        }
        maker.says(&format!(
            "{name} spelt with each number in turn 1: head, params, locals, slots, results, caller ip, callee ip, instance"
        ));
        let most = flags[flags.len() - 1];
        for number in NUMBERS {
            written(maker, &spelt(kind, most, Some(number)), used.contains(&number))?;
        }
    }
    clear(maker)
}

/// A struct of a kind with these flags given, and this number 1.
fn spelt(kind: u64, given: u64, number: Option<&str>) -> Straight {
    let mut q = Straight {
        kind,
        caller_flag: 2 * (given & 1),
        instance_flag: MOST * (given >> 1),
        ..Straight::default()
    };
    match number {
        Some("head") => q.head = 1,
        Some("params") => q.params = 1,
        Some("locals") => q.locals = 1,
        Some("slots") => q.slots = 1,
        Some("results") => q.results = 1,
        Some("caller") => q.caller = 1,
        Some("callee") => q.callee = 1,
        Some(_) => q.instance = 1,
        None => {}
    }
    q
}

fn written(maker: &mut Maker, q: &Straight, lawful: bool) -> Made<()> {
    let number = if lawful { 0 } else { 10 };
    expect(format!("{q:?}"), maker.write_straight(40, 0, q)?, number)
}

fn clear(maker: &mut Maker) -> Made<()> {
    maker.says("a number beside a clear flag: push's caller ip, twice, and its instance, twice; replace's instance, host's caller ip");
    for (kind, given, number) in [
        (1, 0, "caller"),
        (1, 2, "caller"),
        (1, 0, "instance"),
        (1, 1, "instance"),
        (3, 0, "instance"),
        (4, 0, "caller"),
    ] {
        written(maker, &spelt(kind, given, Some(number)), false)?;
    }
    maker.says("a pop without its instance's flag, whose head is 5; the same with the flag; a pop");
    let pop = Straight {
        kind: 2,
        head: 5,
        instance: 7,
        ..Straight::default()
    };
    let given = Straight { instance_flag: 1, ..pop };
    written(maker, &pop, false)?;
    written(maker, &given, false)?;
    written(maker, &Straight { head: 0, ..given }, true)
}
