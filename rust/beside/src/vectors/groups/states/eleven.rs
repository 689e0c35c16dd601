//! All that can be asked, on a state that is laid down: what reads how many frames, and whether it is refused with 9.

use super::super::claims::expect;
use super::super::kinds::{IP, RESET, RESTORE, host, pop, push, replace, return_host, set, sync};
use crate::plain::{Answer, HostFrame, Regs, Request, State};
use crate::vectors::maker::{Made, Maker};

/// A state, and how many words and cells are lent.
#[derive(Clone, Copy)]
pub struct Laid {
    pub state: State,
    pub lent: (usize, usize),
}

/// D, M, words, L, count, `len`, with as much lent; the current instance is 1.
pub const fn laid([depth, height, words, cells, count, len]: [u64; 6]) -> Laid {
    Laid {
        state: State {
            depth,
            height,
            words,
            cells,
            count,
            len,
            current: Some(1),
            regs: ZEROS,
        },
        lent: (words as usize, cells as usize),
    }
}

const ZEROS: Regs = Regs {
    ireg: 0,
    freg32: 0,
    freg64: 0,
};

/// What is wrong.
#[derive(Clone, Copy, PartialEq, Eq)]
pub enum Broken {
    /// Nothing that 9 looks at.
    Nothing,
    State,
    Top,
    Next,
}

enum Asked {
    Ask(Request),
    Registers,
    Part,
}

/// With how many of the newest frames each reads.
const ELEVEN: [(Asked, u64); 11] = [
    (Asked::Ask(pop(5)), 2),
    (Asked::Ask(return_host([0, 0, 1])), 2),
    (Asked::Part, 0),
    (Asked::Ask(RESTORE), 1),
    (Asked::Ask(sync(400)), 1),
    (Asked::Ask(set(0, 9)), 1),
    (Asked::Ask(host(IP, [0, 0, 0])), 1),
    (Asked::Registers, 0),
    (Asked::Ask(replace([0, 0, 0, 0])), 1),
    (Asked::Ask(push(IP, [0, 0, 0, 0])), 1),
    (Asked::Ask(RESET), 0),
];

/// Asks for all eleven. The state is laid down again where the one before changed it.
pub fn all_eleven(maker: &mut Maker, laid: &Laid, broken: Broken) -> Made<()> {
    maker.give(laid.state, laid.lent.0, laid.lent.1);
    for (asked, reads) in &ELEVEN {
        if *maker.state() != laid.state {
            maker.give(laid.state, laid.lent.0, laid.lent.1);
        }
        let nine = match broken {
            Broken::Nothing => false,
            Broken::State => true,
            Broken::Top => *reads > 0,
            Broken::Next => *reads > 1,
        };
        let answer = asked.put(maker)?;
        expect(format!("{answer:?} to one that reads {reads} frames"), answer.number == 9, nine)?;
    }
    Ok(())
}

impl Asked {
    fn put(&self, maker: &mut Maker) -> Made<Answer> {
        match self {
            Self::Ask(q) => maker.ask(q),
            Self::Registers => maker.registers(Regs { ireg: 5, ..ZEROS }),
            Self::Part => maker.part(&HostFrame {
                start: 0,
                end: 1,
                params: 1,
                results: 1,
            }),
        }
    }
}
