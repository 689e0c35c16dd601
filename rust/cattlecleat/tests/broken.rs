//! Openings beyond the limits, and states and words that did not come from here: each is answered, and nothing changes.
use crate::world::{MARK, Owned, P, Q, after, all_refused};
use cattlecleat::{HostFrame, Limits, Refusal, Registers, Request, ReturnHostArgs, Stack, State};

/// The small world with P and Q, its state and words changed.
fn spoilt(spoil: impl FnOnce(&mut State, &mut Vec<u64>)) -> Owned {
    let (mut state, mut words, cells) = after(&[Request::Push(P), Request::Push(Q)]).into_parts();
    spoil(&mut state, &mut words);
    Stack::resume(state, words, cells)
}

fn opening(depth: usize, bytes: usize, words: usize, cells: usize) -> Result<Owned, Refusal> {
    Stack::open(Limits { depth, bytes }, vec![0; words], vec![0; cells])
}

#[test]
fn openings_at_and_beyond_the_limits() {
    assert!(opening(0, 0, 0, 0).is_ok());
    assert!(opening(65_536, 8_388_608, 262_144, 1_048_576).is_ok());
    let beyond = [
        (65_537, 8_388_608, 262_148, 1_048_576),
        (65_536, 8_388_609, 262_144, 1_048_576),
        (65_536, 8_388_608, 262_144, 1_048_577),
        (65_536, 8_388_608, 262_143, 1_048_576),
        (usize::MAX, 0, 0, 0),
    ];
    for (depth, bytes, words, cells) in beyond {
        assert_eq!(opening(depth, bytes, words, cells).err(), Some(Refusal::BadOpening));
    }
}

type Spoil = fn(&mut State, &mut Vec<u64>);

/// All that read the top frame.
const READERS: [Request; 5] = [
    Request::Pop(1),
    Request::Sync(1),
    Request::Restore,
    Request::Set(0, 0),
    Request::ReturnHost(RETURN_HOST),
];

const RETURN_HOST: ReturnHostArgs = ReturnHostArgs {
    head: 0,
    params: 0,
    results: 0,
    instance: 0,
};

#[test]
fn broken_states_refuse_everything() {
    let spoils: [Spoil; 9] = [
        |_, words| words.push(0),
        |_, words| words.truncate(11),
        |state, _| state.cells += 1,
        |state, _| state.depth = 65_537,
        |state, _| state.depth = usize::MAX / 4 + 1,
        |state, _| state.height = 1_048_577,
        |state, _| state.count = 4,
        |state, _| state.len = 11,
        |state, _| (state.height, state.len) = (4, 5),
    ];
    for spoil in spoils {
        let mut stack = spoilt(spoil);
        all_refused(&mut stack, &READERS, Refusal::Broken);
        all_refused(&mut stack, &[Request::Push(P), Request::Reset], Refusal::Broken);
        assert_eq!(stack.sync_regs(Registers::default()), Err(Refusal::Broken));
        assert_eq!(stack.host_params(HostFrame::default()), Err(Refusal::Broken));
    }
}

#[test]
fn a_broken_top_frame_refuses_who_reads_it_and_a_reset_is_the_way_out() {
    let spoils: [Spoil; 3] = [|_, words| words[5] = 6, |_, words| words[6] = 2, |_, words| words[6] = 0];
    for spoil in spoils {
        let mut stack = spoilt(spoil);
        all_refused(&mut stack, &READERS, Refusal::Broken);
        assert_eq!(stack.sync_regs(Registers::default()), Ok(()));
        assert_eq!(stack.reset(), Ok(()));
        assert_eq!(stack.push_frame(P), Ok(0));
    }
}

#[test]
fn a_broken_next_frame_refuses_a_return_alone() {
    let mut stack = spoilt(|_, words| words[3] = 1);
    all_refused(&mut stack, &[Request::Pop(1), Request::ReturnHost(RETURN_HOST)], Refusal::Broken);
    assert_eq!(stack.sync_ip(7), Ok(2));
}

#[test]
fn a_broken_state_can_be_looked_at() {
    let stack = spoilt(|state, words| {
        (state.count, state.len, state.height) = (usize::MAX, usize::MAX, usize::MAX);
        words.truncate(7);
    });
    assert_eq!(
        (stack.depth(), stack.len(), stack.limits().bytes),
        (usize::MAX, usize::MAX, usize::MAX)
    );
    assert_eq!(
        (stack.frame(0).map(|frame| frame.ip), stack.frame(1), stack.frame(usize::MAX)),
        (Some(101), None, None)
    );
    assert_eq!((stack.words().len(), stack.cells().len()), (7, 10));
    assert_eq!(stack.cells()[9], MARK);
}

#[test]
fn a_flag_of_a_state_reads_as_given_unless_it_is_0() {
    let mut given = spoilt(|state, _| state.current_flag = 7);
    assert_eq!((given.current(), given.restore_frame().map(|top| top.instance)), (Some(2), Ok(2)));
    let mut absent = spoilt(|state, _| state.current_flag = 0);
    assert_eq!((absent.current(), absent.restore_frame()), (None, Err(Refusal::NoInstance)));
}

#[test]
fn a_refusal_hands_the_state_back_number_for_number() {
    for (flag, current) in [(7, 2), (0, 9)] {
        let mut stack = spoilt(|state, _| (state.current_flag, state.current) = (flag, current));
        let came = stack.state();
        assert_eq!((stack.set(u16::MAX, 1), stack.state()), (Err(Refusal::BeyondLen), came));
    }
}
