//! What a pushed and a replaced frame owe, by the frame's own debt, the current instance and the one that is named.

use super::super::claims::{asked, expect, opened, row};
use super::super::kinds::{HIGH_BIT, IP, naming, pop, push, replace};
use crate::plain::State;
use crate::vectors::maker::{Made, Maker};

/// The instances that pushes name, one after another; whether the current one is then taken away, which no request does; the one that is
/// named last; and what a frame owes that is pushed, and one that is replaced.
struct Owed {
    pushed_before: &'static [Option<u64>],
    none_current: bool,
    named: Option<u64>,
    pushed: Option<u64>,
    replaced: Option<u64>,
}

const fn owed(pushed_before: &'static [Option<u64>], named: Option<u64>, pushed: Option<u64>, replaced: Option<u64>) -> Owed {
    Owed {
        pushed_before,
        none_current: false,
        named,
        pushed,
        replaced,
    }
}

/// A debt 5 beside no current instance.
const fn orphaned(named: Option<u64>, pushed: Option<u64>, replaced: Option<u64>) -> Owed {
    Owed {
        none_current: true,
        ..owed(&[Some(5), Some(6)], named, pushed, replaced)
    }
}

const H: Option<u64> = Some(HIGH_BIT);

const OWED: &[Owed] = &[
    owed(&[None], None, None, None),
    owed(&[None], Some(5), None, None),
    owed(&[Some(5)], None, None, None),
    owed(&[Some(5)], Some(5), None, None),
    owed(&[Some(5)], Some(6), Some(5), Some(5)),
    owed(&[Some(0)], None, None, None),
    owed(&[Some(0)], Some(0), None, None),
    owed(&[Some(0)], H, Some(0), Some(0)),
    owed(&[H], Some(0), H, H),
    owed(&[H], H, None, None),
    owed(&[H], Some(HIGH_BIT + 1), H, H),
    owed(&[Some(5), Some(6)], None, None, Some(5)),
    owed(&[Some(5), Some(6)], Some(5), Some(6), Some(5)),
    owed(&[Some(5), Some(6)], Some(7), Some(6), Some(5)),
    owed(&[Some(0), Some(6)], Some(7), Some(6), Some(0)),
    orphaned(None, None, Some(5)),
    orphaned(Some(5), None, Some(5)),
];

pub fn make(maker: &mut Maker) -> Made<()> {
    OWED.iter().try_for_each(|owed| owed.tell(maker))?;
    outlives(maker)
}

/// An instance in words.
fn said(instance: Option<u64>) -> String {
    match instance {
        None => "none".to_string(),
        Some(HIGH_BIT) => "2^63".to_string(),
        Some(number) if number < HIGH_BIT => number.to_string(),
        Some(number) => format!("2^63 + {}", number - HIGH_BIT),
    }
}

/// A frame's debt flag and debt.
fn debt(maker: &Maker, frame: usize) -> Option<u64> {
    let [_, _, flag, debt] = row(maker, frame);
    (flag == 1).then_some(debt)
}

impl Owed {
    /// A push, and its pop, which hands back the debt or else the 7 that it gives; then a replace.
    fn tell(&self, maker: &mut Maker) -> Made<()> {
        let frames = self.pushed_before.len();
        self.stand(maker)?;
        let current = maker.state().current;
        asked(maker, &naming(self.named, push(IP, [0, 0, 0, 0])), 0)?;
        expect("pushed", debt(maker, frames), self.pushed)?;
        expect("current", maker.state().current, self.named.or(current))?;
        expect("popped", asked(maker, &pop(7), 0)?.instance, self.pushed.unwrap_or(7))?;
        self.stand_again(maker)?;
        asked(maker, &naming(self.named, replace([0, 0, 0, 0])), 0)?;
        expect("replaced", debt(maker, frames - 1), self.replaced)?;
        expect("current", maker.state().current, self.named.or(current))
    }

    fn stand(&self, maker: &mut Maker) -> Made<()> {
        let frames = self.pushed_before.len();
        let top = if frames > 1 { self.pushed_before[0] } else { None };
        let current = if self.none_current { None } else { self.pushed_before[frames - 1] };
        maker.says(&format!(
            "debts: the frame's own {}, current {}, named {}: a push owes {}, a replace {}",
            said(top),
            said(current),
            said(self.named),
            said(self.pushed),
            said(self.replaced),
        ));
        self.stand_again(maker)
    }

    fn stand_again(&self, maker: &mut Maker) -> Made<()> {
        opened(maker, [16, 3, 12, 2])?;
        for (frame, instance) in self.pushed_before.iter().enumerate() {
            let caller = if frame == 0 { None } else { IP };
            asked(maker, &naming(*instance, push(caller, [0, 0, 0, 0])), 0)?;
        }
        if self.none_current {
            let state = State {
                current: None,
                ..*maker.state()
            };
            maker.give(state, 12, 2);
        }
        Ok(())
    }
}

/// The current instance stays after the last frame: the next first push makes a debt.
fn outlives(maker: &mut Maker) -> Made<()> {
    maker.says(
        "debts: 5 stays current after the last frame, so a first push that names 6 owes it; with the last frame the debt is forgotten",
    );
    opened(maker, [16, 3, 12, 2])?;
    let first = |instance| naming(Some(instance), push(None, [0, 0, 0, 0]));
    asked(maker, &first(5), 0)?;
    asked(maker, &pop(9), 1)?;
    asked(maker, &first(6), 0)?;
    expect("the debt", debt(maker, 0), Some(5))?;
    asked(maker, &pop(9), 1)?;
    expect("current", maker.state().current, Some(6))
}
