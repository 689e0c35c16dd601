//! C by hand beside the plain reading: every number handed back, the state, all words and all cells.

mod broken;
mod records;
mod requests;

use super::{Floor, replay};
use crate::bench::in_place::Face;
use crate::party::arguments;
use crate::party::convert::{flagged, plain_host, plain_state, raw_request, raw_state};
use crate::plain::{Answer, Replay, Request, said};
use crate::reading::{self, Reading};
use crate::rng::mix;
use cattlecleat::raw::{self, Frame, Hosted, Offset, Returned};

/// Asks both, and has the reading go on: the answer. What must not matter is filled from a number.
fn ask_both(stack: &mut Reading, q: &Request, noise: u64) -> Answer {
    let came = raw_state(&stack.state, mix(noise));
    let (mut state, mut words, mut cells) = (came, stack.words.clone(), stack.cells.clone());
    let found = ask(&mut state, &mut words, &mut cells, &raw_request(q, mix(noise + 1)));
    let wanted = stack.ask(q);
    assert_eq!(found, wanted, "{q:?} on {came:?}");
    assert!(
        wanted.accepted() || state == came,
        "the refusal of {q:?} changes {came:?} to {state:?}"
    );
    assert_eq!(plain_state(&state), stack.state, "{q:?} on {came:?}");
    assert!((words, cells) == (stack.words.clone(), stack.cells.clone()), "{q:?} on {came:?}");
    wanted
}

/// One of the five kinds that C by hand has functions for.
fn ask(s: &mut raw::State, words: &mut [u64], cells: &mut [u64], q: &raw::Request) -> Answer {
    match q.kind {
        1 => offset(Floor::push_frame(s, words, cells, &arguments::push(q))),
        2 => frame(Floor::pop_frame(s, words, cells, q.instance)),
        3 => offset(Floor::replace_frame(s, words, cells, &arguments::replace(q))),
        4 => hosted(Floor::prepare_host_frame(s, words, cells, &arguments::host(q))),
        _ => returned(Floor::return_prepare_host_frame(s, words, cells, &arguments::return_host(q))),
    }
}

fn offset(found: Offset) -> Answer {
    Answer {
        number: found.number,
        offset: found.offset as u64,
        ..Answer::default()
    }
}

fn frame(found: Frame) -> Answer {
    Answer {
        number: found.number,
        offset: found.offset as u64,
        ip: found.ip,
        instance: found.instance,
        ..Answer::default()
    }
}

fn hosted(found: Hosted) -> Answer {
    Answer {
        number: found.number,
        offset: found.offset as u64,
        host: plain_host(&found.host),
        ..Answer::default()
    }
}

fn returned(found: Returned) -> Answer {
    Answer {
        host: plain_host(&found.host),
        ..frame(Frame {
            number: found.number,
            offset: found.offset,
            ip: found.ip,
            instance: found.instance,
        })
    }
}

/// Replays a trace on both, and has the reading go on.
fn replay_both(stack: &mut Reading, run: Replay, trace: &[u8], noise: u64) -> Replay {
    let (stop_flag, cost) = flagged(run.stopped, mix(noise));
    let came = raw::Run {
        state: raw_state(&stack.state, mix(noise + 1)),
        number: run.number,
        fuel: run.fuel,
        spent: run.spent,
        stop_flag,
        cost,
    };
    let (mut words, mut cells) = (stack.words.clone(), stack.cells.clone());
    let found = replay(came, &mut words, &mut cells, trace);
    let wanted = reading::replay(stack, run, trace, |_, _| ());
    let plain = Replay {
        number: found.number,
        fuel: found.fuel,
        spent: found.spent,
        stopped: said([found.stop_flag, found.cost]),
    };
    assert_eq!((plain, plain_state(&found.state)), (wanted, stack.state), "{came:?}, {trace:?}");
    assert!((words, cells) == (stack.words.clone(), stack.cells.clone()), "{came:?}, {trace:?}");
    wanted
}
