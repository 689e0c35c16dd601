//! Where the Rust has a debug assertion for what document 01 refuses, and where it accepts what document 01 refuses.

use oracle::engine::{StackConfig, executor::handler::state::Stack};
use oracle::{Limits, Oracle, Request, TrapCode, driver::call};
use std::panic::{self, AssertUnwindSafe};

const FIRST: Request = Request::Push {
    caller: None,
    callee: 1,
    head: 0,
    params: 0,
    locals: 0,
    slots: 4,
    instance: None,
};

fn over_a_frame(params: u16, locals: u16, slots: u16) -> Request {
    Request::Push {
        caller: Some(5),
        callee: 2,
        head: 0,
        params,
        locals,
        slots,
        instance: None,
    }
}

/// A stack with one frame, for calls past the driver.
fn with_a_frame() -> Stack {
    let mut stack = Stack::new(&StackConfig::new(0, 80, 3));
    call(&mut stack, FIRST).expect("there is room");
    stack
}

fn panics(request: Request) -> bool {
    let mut stack = with_a_frame();
    panic::catch_unwind(AssertUnwindSafe(|| call(&mut stack, request))).is_err()
}

fn refused(request: Request) -> u64 {
    let mut oracle = Oracle::open(Limits {
        bytes: 80,
        depth: 3,
        cells: 10,
    })
    .expect("within the limits");
    oracle.ask(FIRST).expect("accepted");
    oracle.ask(request).expect("document 01 and the Rust agree").number
}

#[test]
fn debug_assertions_for_6_and_a_part_of_5() {
    assert_eq!(refused(FIRST), 6);
    assert!(panics(FIRST));
    for (params, locals, slots) in [(2, 1, 3), (1, 3, 2), (3, 3, 2)] {
        assert_eq!(refused(over_a_frame(params, locals, slots)), 5);
        assert!(panics(over_a_frame(params, locals, slots)));
    }
    let replace = Request::Replace {
        callee: 3,
        head: 0,
        params: 1,
        locals: 3,
        slots: 2,
        instance: None,
    };
    assert_eq!(refused(replace), 5);
    assert!(panics(replace));
}

#[test]
fn a_push_of_no_slots_with_a_head_is_accepted_there() {
    let push = Request::Push {
        caller: Some(5),
        callee: 2,
        head: 1,
        params: 0,
        locals: 0,
        slots: 0,
        instance: None,
    };
    assert_eq!(refused(push), 5);
    assert!(call(&mut with_a_frame(), push).is_ok());
}

#[test]
fn a_replace_of_no_slots_with_parameters_is_accepted_there() {
    let replace = Request::Replace {
        callee: 3,
        head: 0,
        params: 1,
        locals: 0,
        slots: 0,
        instance: None,
    };
    assert_eq!(refused(replace), 5);
    assert!(call(&mut with_a_frame(), replace).is_ok());
}

#[test]
fn a_replace_with_too_few_locals_traps_there_where_it_needs_too_much() {
    let replace = Request::Replace {
        callee: 3,
        head: 0,
        params: 2,
        locals: 1,
        slots: 11,
        instance: None,
    };
    assert_eq!(refused(replace), 5);
    assert_eq!(call(&mut with_a_frame(), replace), Err(TrapCode::StackOverflow));
}

#[test]
fn a_trap_leaves_a_frame_and_an_ip_behind_there() {
    let mut stack = with_a_frame();
    assert_eq!(call(&mut stack, over_a_frame(0, 0, 11)), Err(TrapCode::StackOverflow));
    assert_eq!((stack.count(), stack.frame(0).0), (2, 5));
}

#[test]
fn a_trap_leaves_a_frame_popped_there() {
    let tail = Request::ReturnHost {
        head: 0,
        params: 0,
        results: 11,
        instance: 1,
    };
    assert_eq!(refused(tail), 2);
    let mut stack = with_a_frame();
    assert_eq!(call(&mut stack, tail), Err(TrapCode::StackOverflow));
    assert_eq!(stack.count(), 0);
}

#[test]
fn an_empty_host_frame_grows_to_its_start() {
    let host = Request::Host {
        caller: None,
        head: 6,
        params: 0,
        results: 0,
    };
    let mut stack = with_a_frame();
    call(&mut stack, host).expect("there is room");
    assert_eq!(stack.cells_len(), 6);
}
