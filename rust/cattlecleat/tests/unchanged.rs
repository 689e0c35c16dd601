//! Every refusal that a whole stack gives, request by request and in its order: the answer, and that nothing changes.
use crate::world::{P, Q, after, all_refused, opened, push_over, refused};
use cattlecleat::{HostArgs, PushArgs, Refusal, ReplaceArgs, Request, ReturnHostArgs};

fn replace(head: u16, params: u16, locals: u16, slots: u16) -> Request {
    let (callee, instance) = (300, Some(3));
    Request::Replace(ReplaceArgs {
        callee,
        head,
        params,
        locals,
        slots,
        instance,
    })
}

fn host(caller: Option<u64>, head: u16, params: u16, results: u16) -> Request {
    Request::Host(HostArgs {
        caller,
        head,
        params,
        results,
    })
}

fn return_host(head: u16, params: u16, results: u16) -> Request {
    let instance = 3;
    Request::ReturnHost(ReturnHostArgs {
        head,
        params,
        results,
        instance,
    })
}

#[test]
fn push_without_a_frame() {
    let mut stack = after(&[]);
    refused(&mut stack, Request::Push(PushArgs { params: 3, ..Q }), Refusal::NoFrame);
    refused(&mut stack, Request::Push(PushArgs { params: 3, ..P }), Refusal::BadCounts);
    refused(&mut stack, Request::Push(PushArgs { locals: 5, ..P }), Refusal::BadCounts);
    let (head, slots) = (u16::MAX, u16::MAX);
    refused(&mut stack, Request::Push(PushArgs { head, slots, ..P }), Refusal::Overflow);
}

#[test]
fn push_over_frames() {
    let mut one = after(&[Request::Push(P)]);
    refused(&mut one, Request::Push(PushArgs { params: 3, ..P }), Refusal::NoCallerIp);
    refused(&mut one, Request::Push(push_over(1, 0)), Refusal::BadCounts);
    let mut full = after(&[Request::Push(P), Request::Push(Q), Request::Push(push_over(0, 0))]);
    refused(&mut full, Request::Push(PushArgs { params: 3, ..P }), Refusal::Overflow);
}

#[test]
fn pop_sync_restore_and_set() {
    let mut none = after(&[]);
    let requests = [Request::Pop(1), Request::Sync(1), Request::Restore, Request::Set(0, 1)];
    all_refused(&mut none, &requests, Refusal::NoFrame);
    let mut nameless = after(&[Request::Push(PushArgs { instance: None, ..P })]);
    refused(&mut nameless, Request::Restore, Refusal::NoInstance);
    refused(&mut nameless, Request::Set(4, 1), Refusal::BeyondLen);
}

#[test]
fn replace_in_its_order() {
    refused(&mut after(&[]), replace(0, 6, 5, 5), Refusal::NoFrame);
    let mut two = after(&[Request::Push(P), Request::Push(Q)]);
    refused(&mut two, replace(9, 6, 5, 9), Refusal::BadCounts);
    refused(&mut two, replace(0, 1, 0, 0), Refusal::BadCounts);
    refused(&mut two, replace(9, 5, 5, 9), Refusal::Overflow);
    refused(&mut two, replace(9, 5, 5, 8), Refusal::BeyondLen);
    refused(&mut two, replace(9, 0, 5, 8), Refusal::BeyondLen);
}

#[test]
fn host_and_return_host_in_their_order() {
    let mut none = after(&[]);
    refused(&mut none, host(Some(0), 11, 0, 0), Refusal::NoFrame);
    refused(&mut none, host(None, 11, 0, 0), Refusal::Overflow);
    refused(&mut none, return_host(5, 0, 11), Refusal::NoFrame);
    let mut one = after(&[Request::Push(P)]);
    refused(&mut one, return_host(5, 0, 11), Refusal::BeyondLen);
    refused(&mut one, return_host(4, 0, 11), Refusal::Overflow);
}

#[test]
fn beyond_the_cells_lent() {
    let mut stack = opened(88, 10);
    stack.push_frame(P).expect("accepted");
    refused(&mut stack, Request::Push(push_over(4, 7)), Refusal::OutOfCells);
    refused(&mut stack, Request::Push(push_over(4, 8)), Refusal::Overflow);
    refused(&mut stack, replace(12, 0, 0, 11), Refusal::OutOfCells);
    refused(&mut stack, host(Some(9), 4, 0, 7), Refusal::OutOfCells);
    refused(&mut stack, return_host(0, 0, 11), Refusal::OutOfCells);
}
