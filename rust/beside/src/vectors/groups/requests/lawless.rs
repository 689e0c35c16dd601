//! Records that are 0 but for the kind, the flags and a 1 in one field: for each rule one that breaks only that, and some that break none.

use super::super::bytes::record;
use super::super::claims::{expect, opened};
use crate::plain::State;
use crate::vectors::maker::{Made, Maker};

/// Places of the fields.
const HEAD: usize = 2;
const PARAMS: usize = 3;
const LOCALS: usize = 4;
const SLOTS: usize = 5;
const RESULTS: usize = 6;
const CALLER: usize = 7;
const CALLEE: usize = 8;
const INSTANCE: usize = 9;

/// What is shown, and kind, flags and the field that is 1, with whether the record reads well.
type Group = (&'static str, &'static [([u64; 2], Option<usize>, bool)]);

const GROUPS: &[Group] = &[
    ("no kind: 0 and 10", &[([0, 0], None, false), ([10, 0], None, false)]),
    (
        "flags that the kind does not have: push 4, pop 0, host 2, sync 1",
        &[
            ([1, 4], None, false),
            ([2, 0], None, false),
            ([4, 2], None, false),
            ([6, 1], None, false),
        ],
    ),
    (
        "a count that the kind does not use: pop's head, set's params, host's locals, return-host's slots, replace's results",
        &[
            ([2, 2], Some(HEAD), false),
            ([9, 0], Some(PARAMS), false),
            ([4, 0], Some(LOCALS), false),
            ([5, 2], Some(SLOTS), false),
            ([3, 0], Some(RESULTS), false),
        ],
    ),
    (
        "a word that the kind does not use: replace's caller ip, host's callee ip and instance",
        &[
            ([3, 2], Some(CALLER), false),
            ([4, 1], Some(CALLEE), false),
            ([4, 1], Some(INSTANCE), false),
        ],
    ),
    (
        "a word whose flag is clear, and the same with the flag: push's caller ip and instance, replace's instance, host's caller ip",
        &[
            ([1, 2], Some(CALLER), false),
            ([1, 1], Some(CALLER), true),
            ([1, 1], Some(INSTANCE), false),
            ([1, 2], Some(INSTANCE), true),
            ([3, 0], Some(INSTANCE), false),
            ([3, 2], Some(INSTANCE), true),
            ([4, 0], Some(CALLER), false),
            ([4, 1], Some(CALLER), true),
        ],
    ),
    (
        "words without a flag of their own, or whose flag is always set: pop's instance, sync's ip, replace's callee ip, set's cell",
        &[
            ([2, 2], Some(INSTANCE), true),
            ([6, 0], Some(CALLER), true),
            ([3, 0], Some(CALLEE), true),
            ([9, 0], Some(CALLEE), true),
        ],
    ),
];

pub fn make(maker: &mut Maker) -> Made<()> {
    for (words, records) in GROUPS {
        maker.says(words);
        for ([kind, flags], field, reads) in *records {
            maker.lay(0, &fields(*kind, *flags, *field));
            expect(format!("{words}: {kind} {flags}"), maker.read(40, 0)?.is_some(), *reads)?;
        }
    }
    asked(maker)
}

fn fields(kind: u64, flags: u64, field: Option<usize>) -> [u8; 40] {
    let mut fields = [kind, flags, 0, 0, 0, 0, 0, 0, 0, 0];
    field.iter().for_each(|field| fields[*field] = 1);
    record(fields)
}

/// A record that reads badly asks for nothing, whatever the state is.
fn asked(maker: &mut Maker) -> Made<()> {
    maker.says(
        "records asked: a bad one is 10 over a good state and over a broken one; a reset is 0, and then 9; a push that breaks 5 reads well",
    );
    opened(maker, [32, 1, 4, 2])?;
    let (bad, good) = (fields(8, 1, None), fields(8, 0, None));
    let disordered = fields(1, 0, Some(PARAMS));
    let open = *maker.state();
    let broken = State { len: 3, ..open };
    for (state, numbers) in [(open, [10, 5, 0]), (broken, [10, 9, 9])] {
        maker.give(state, 4, 2);
        for (record, number) in [bad, disordered, good].iter().zip(numbers) {
            expect("asked", maker.record(record)?.number, number)?;
        }
    }
    Ok(())
}
