//! Document 01's small world, M 80 bytes, L 10, D 3, with its two pushes P and Q; buffers hold marks, so that a write shows.
use cattlecleat::{FRAME_WORDS, Limits, PushArgs, Refusal, Request, Stack, State};

pub type Owned = Stack<Vec<u64>>;

/// What every word and cell holds before it is written.
pub const MARK: u64 = 0xABAB_ABAB_ABAB_ABAB;

pub const P: PushArgs = PushArgs {
    caller: None,
    callee: 100,
    head: 0,
    params: 0,
    locals: 2,
    slots: 4,
    instance: Some(1),
};

pub const Q: PushArgs = PushArgs {
    caller: Some(101),
    callee: 200,
    head: 2,
    params: 1,
    locals: 2,
    slots: 3,
    instance: Some(2),
};

/// A push over a frame, with params and locals 0 and no instance.
pub fn push_over(head: u16, slots: u16) -> PushArgs {
    PushArgs {
        caller: Some(102),
        callee: 300,
        head,
        slots,
        ..PushArgs::default()
    }
}

pub fn opened(bytes: usize, cells: usize) -> Owned {
    Stack::open(Limits { depth: 3, bytes }, vec![MARK; 3 * FRAME_WORDS], vec![MARK; cells]).expect("the limits are small")
}

/// The small world after these requests, all of them accepted.
pub fn after(requests: &[Request]) -> Owned {
    let mut stack = opened(80, 10);
    for request in requests {
        stack.ask(*request).expect("accepted");
    }
    stack
}

/// State and both buffers in full.
pub fn whole(stack: &Owned) -> (State, Vec<u64>, Vec<u64>) {
    stack.clone().into_parts()
}

/// Asks for each of what must be refused with this.
#[track_caller]
pub fn all_refused(stack: &mut Owned, requests: &[Request], refusal: Refusal) {
    for request in requests {
        refused(stack, *request, refusal);
    }
}

/// Asks for what must be refused with this, and sees that nothing has changed.
#[track_caller]
pub fn refused(stack: &mut Owned, request: Request, refusal: Refusal) {
    let before = whole(stack);
    assert_eq!(stack.ask(request), Err(refusal), "{request:?}");
    assert_eq!(whole(stack), before, "{request:?} changed something");
}
