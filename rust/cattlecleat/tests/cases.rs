//! Document 01's cases at the edges, K1 to K10.
use crate::world::{MARK, P, Q, after, opened, push_over, refused};
use cattlecleat::{FRAME_WORDS, Frame, HostFrame, Popped, Refusal, ReplaceArgs, Request, ReturnHostArgs, align_relative_to};

const PQ: [Request; 2] = [Request::Push(P), Request::Push(Q)];

#[test]
fn k1_fifteen_bytes_are_one_cell() {
    let stack = opened(15, 10);
    assert_eq!((stack.state().height, stack.limits().bytes), (1, 8));
}

#[test]
fn k2_a_call_into_another_instance_and_back() {
    let mut stack = after(&PQ);
    assert_eq!(stack.cells(), [0, 0, MARK, 0, MARK]);
    let debt = Some(1);
    assert_eq!(stack.frame(1), Some(Frame { ip: 200, start: 2, debt }));
    assert_eq!(stack.current(), Some(2));
    assert_eq!(stack.frame(0).map(|frame| frame.ip), Some(101));
    let (ip, start, instance) = (101, 0, 1);
    assert_eq!(stack.pop_frame(2), Ok(Popped::Returned { ip, start, instance }));
    assert_eq!((stack.current(), stack.len()), (Some(1), 5));
    assert_eq!((stack.frame(1), stack.words()[FRAME_WORDS]), (None, 200));
}

#[test]
fn k3_the_height_limit() {
    let mut stack = after(&[Request::Push(P)]);
    refused(&mut stack, Request::Push(push_over(4, 7)), Refusal::Overflow);
    assert_eq!(stack.push_frame(push_over(4, 6)), Ok(4));
    assert_eq!(stack.len(), 10);
}

#[test]
fn k4_the_cells_lent() {
    let mut stack = opened(80, 8);
    stack.push_frame(P).expect("accepted");
    refused(&mut stack, Request::Push(push_over(4, 6)), Refusal::OutOfCells);
}

#[test]
fn k5_a_callee_without_slots() {
    let mut stack = after(&[Request::Push(P)]);
    assert_eq!(stack.push_frame(push_over(0, 0)), Ok(0));
    assert_eq!((stack.depth(), stack.len()), (2, 4));
}

#[test]
fn k6_a_tail_call_keeps_the_debt() {
    let mut stack = after(&PQ);
    assert_eq!(stack.set(1, 9), Ok(3));
    let args = ReplaceArgs {
        callee: 300,
        head: 1,
        params: 1,
        locals: 2,
        slots: 3,
        instance: Some(1),
    };
    assert_eq!(stack.replace_frame(args), Ok(2));
    assert_eq!(stack.cells()[2..4], [9, 0]);
    let debt = Some(1);
    assert_eq!(stack.frame(1), Some(Frame { ip: 300, start: 2, debt }));
    assert_eq!(stack.current(), Some(1));
}

#[test]
fn k7_the_last_return_restores_no_debt() {
    let mut stack = after(&[Request::Push(P)]);
    let args = ReplaceArgs {
        instance: Some(2),
        ..ReplaceArgs::default()
    };
    stack.replace_frame(args).expect("accepted");
    assert_eq!(stack.frame(0).and_then(|frame| frame.debt), Some(1));
    assert_eq!(stack.pop_frame(1), Ok(Popped::Last));
    assert_eq!(stack.current(), Some(2));
}

#[test]
fn k8_replace_looks_for_parameters_after_growth() {
    let mut stack = after(&[Request::Push(P)]);
    let args = ReplaceArgs {
        head: 3,
        params: 2,
        locals: 2,
        slots: 4,
        ..ReplaceArgs::default()
    };
    refused(&mut stack, Request::Replace(args), Refusal::BeyondLen);
    assert_eq!(stack.replace_frame(ReplaceArgs { slots: 5, ..args }), Ok(0));
}

#[test]
fn k9_return_host_looks_for_parameters_before_growth() {
    let mut stack = after(&PQ);
    let args = ReturnHostArgs {
        head: 3,
        params: 0,
        results: 1,
        instance: 2,
    };
    refused(
        &mut stack,
        Request::ReturnHost(ReturnHostArgs { head: 4, ..args }),
        Refusal::BeyondLen,
    );
    let (start, end, params, results) = (2, 3, 0, 1);
    let frame = HostFrame {
        start,
        end,
        params,
        results,
    };
    assert_eq!(stack.return_prepare_host_frame(args).map(|call| call.frame), Ok(frame));
}

#[test]
fn k10_the_aligned_ip() {
    let aligned = [1003, 1008, 1009].map(|ip| align_relative_to(ip, 1000));
    assert_eq!(aligned, [Ok(1008), Ok(1008), Ok(1016)]);
}
