//! Requests asked straight, as the C face takes them: flags other than 0 and 1, numbers that the kind does not use, and no kind.

use super::super::claims::{all_asked, expect, opened, row};
use super::super::kinds::{IP, host, naming, pop, push, replace, return_host, sync};
use crate::plain::{Answer, Request, State, Straight};
use crate::vectors::maker::{Made, Maker};

const MOST: u64 = u64::MAX;
const NO_KINDS: [u64; 7] = [0, 10, 255, 256, 257, 1 << 32 | 1, MOST];

pub fn make(maker: &mut Maker) -> Made<()> {
    no_kind(maker)?;
    callers(maker)?;
    instances(maker)?;
    always_given(maker)?;
    unused(maker)
}

/// Two frames, instance 1 and then 2.
fn two_frames(maker: &mut Maker, words: &str) -> Made<()> {
    maker.says(words);
    opened(maker, [96, 3, 12, 6])?;
    let first = naming(Some(1), push(None, [0, 0, 0, 3]));
    let second = naming(Some(2), push(IP, [1, 0, 0, 3]));
    all_asked(maker, &[(first, 0), (second, 0)]).map(|_| ())
}

/// A request with these flags for its caller ip and its instance.
fn flagged(q: &Request, [caller_flag, instance_flag]: [u64; 2]) -> Straight {
    Straight {
        caller_flag,
        instance_flag,
        ..Straight::of(q)
    }
}

fn ask(maker: &mut Maker, q: &Straight, number: u64) -> Made<Answer> {
    let answer = maker.ask_straight(q)?;
    expect(format!("{q:?}"), answer.number, number)?;
    Ok(answer)
}

fn no_kind(maker: &mut Maker) -> Made<()> {
    two_frames(maker, "straight: a kind that is none of the nine is 10")?;
    let of_kind = |kind| Straight {
        kind,
        ..Straight::of(&pop(5))
    };
    NO_KINDS.iter().try_for_each(|kind| ask(maker, &of_kind(*kind), 10).map(|_| ()))?;
    maker.says("straight: also over a state that is broken, where all others are 9");
    let broken = State { len: 7, ..*maker.state() };
    maker.give(broken, 12, 6);
    for (kind, number) in [(0, 10), (10, 10), (2, 9), (8, 9)] {
        ask(maker, &of_kind(kind), number)?;
    }
    Ok(())
}

const FLAGS: [(&str, u64); 4] = [("0", 0), ("1", 1), ("2", 2), ("2^64 - 1", MOST)];

/// A flag of 0 is none, whatever the number beside it; any other is given.
fn callers(maker: &mut Maker) -> Made<()> {
    for (name, flag) in FLAGS {
        let (pushed, stored) = if flag == 0 { (6, 400) } else { (0, 130) };
        two_frames(
            maker,
            &format!("straight: a caller ip with flag {name}: host, and push over two frames"),
        )?;
        ask(maker, &flagged(&host(Some(130), [0, 1, 1]), [flag, 0]), 0)?;
        expect("the ip", row(maker, 1)[0], stored)?;
        ask(maker, &flagged(&push(Some(140), [0, 0, 0, 1]), [flag, 0]), pushed)?;
    }
    Ok(())
}

fn instances(maker: &mut Maker) -> Made<()> {
    for (name, flag) in FLAGS {
        let current = if flag == 0 { 2 } else { 7 };
        for (kind, q) in [("push", push(IP, [0, 0, 0, 1])), ("replace", replace([0, 0, 0, 1]))] {
            two_frames(maker, &format!("straight: an instance 7 with flag {name}: {kind}"))?;
            let caller = u64::from(q.caller.is_some());
            ask(maker, &flagged(&naming(Some(7), q), [caller, flag]), 0)?;
            expect("current", maker.state().current, Some(current))?;
        }
    }
    Ok(())
}

/// The instance of a pop and a return-host, and the ip of a sync.
fn always_given(maker: &mut Maker) -> Made<()> {
    two_frames(
        maker,
        "straight: pop, return-host and sync look at no flag: the 9 is handed back, the ip 210 stored",
    )?;
    all_asked(maker, &[(push(IP, [1, 0, 0, 1]), 0)])?;
    ask(maker, &flagged(&sync(210), [0, 0]), 0)?;
    expect("the ip", row(maker, 2)[0], 210)?;
    for (q, flag) in [(pop(9), 0), (pop(9), MOST), (naming(Some(9), return_host([0, 0, 1])), 0)] {
        let back = ask(maker, &flagged(&q, [flag, flag]), 0)?;
        expect("handed back", back.instance, 9)?;
        all_asked(maker, &[(push(IP, [1, 0, 0, 1]), 0)])?;
    }
    Ok(())
}

/// Every number the largest.
const ALL: Straight = Straight {
    kind: 0,
    head: u16::MAX,
    params: u16::MAX,
    locals: u16::MAX,
    slots: u16::MAX,
    results: u16::MAX,
    caller_flag: MOST,
    caller: MOST,
    callee: MOST,
    instance_flag: MOST,
    instance: MOST,
};

/// A host or return-host that uses these counts.
const fn hosting(kind: u64, [head, params, results]: [u16; 3]) -> Straight {
    Straight {
        kind,
        head,
        params,
        results,
        ..ALL
    }
}

/// A push or replace that uses these counts.
const fn calling(kind: u64, [head, params, locals, slots]: [u16; 4]) -> Straight {
    Straight {
        kind,
        head,
        params,
        locals,
        slots,
        ..ALL
    }
}

/// Each kind with what it uses, and the largest in everything else.
const FILLED: [(Straight, u64); 10] = [
    (calling(1, [1, 0, 1, 2]), 0),
    (calling(3, [0, 1, 2, 2]), 0),
    (Straight { kind: 7, ..ALL }, 0),
    (Straight { kind: 9, head: 1, ..ALL }, 0),
    (Straight { kind: 6, ..ALL }, 0),
    (hosting(4, [0, 1, 1]), 0),
    (hosting(5, [0, 0, 1]), 0),
    (Straight { kind: 2, ..ALL }, 0),
    (Straight { kind: 2, ..ALL }, 1),
    (Straight { kind: 8, ..ALL }, 0),
];

fn unused(maker: &mut Maker) -> Made<()> {
    two_frames(maker, "straight: numbers that a kind does not use are not looked at")?;
    FILLED.iter().try_for_each(|(q, number)| ask(maker, q, *number).map(|_| ()))
}
