//! Host frames, and the parts of the cells that a host is lent.
use crate::world::{P, Q, after, refused, whole};
use cattlecleat::{HostArgs, HostCall, HostFrame, Popped, Refusal, Request, ReturnHostArgs};

fn frame(start: usize, end: usize, params: u16, results: u16) -> HostFrame {
    HostFrame {
        start,
        end,
        params,
        results,
    }
}

#[test]
fn a_host_reads_its_parameters_and_writes_its_results() {
    let mut stack = after(&[Request::Push(P), Request::Set(3, 30)]);
    let (caller, head, params, results) = (Some(105), 3, 1, 3);
    let call = stack.prepare_host_frame(HostArgs {
        caller,
        head,
        params,
        results,
    });
    let frame = frame(3, 6, 1, 3);
    assert_eq!(call, Ok(HostCall { start: 0, frame }));
    assert_eq!((stack.len(), stack.frame(0).map(|top| top.ip)), (6, Some(105)));
    assert_eq!(stack.host_params(frame), Ok(&[30][..]));
    stack.host_results(frame).expect("accepted").copy_from_slice(&[1, 2, 3]);
    assert_eq!(stack.cells()[2..], [crate::world::MARK, 1, 2, 3]);
}

#[test]
fn a_part_that_is_none_is_refused() {
    let mut stack = after(&[Request::Push(P)]);
    let before = whole(&stack);
    let bad = [
        frame(0, 5, 5, 0),
        frame(3, 2, 1, 1),
        frame(0, 2, 1, 1),
        frame(usize::MAX, 0, 1, 0),
        frame(0, usize::MAX, 1, 0),
    ];
    for frame in bad {
        assert_eq!(stack.host_params(frame), Err(Refusal::BadHostFrame), "{frame:?}");
        assert_eq!(stack.host_results(frame), Err(Refusal::BadHostFrame), "{frame:?}");
    }
    assert_eq!(whole(&stack), before);
}

#[test]
fn a_host_without_counts_gets_the_empty_part() {
    let mut stack = after(&[]);
    for empty in [frame(0, 0, 0, 0), frame(7, 3, 0, 0), frame(usize::MAX, usize::MAX, 0, 0)] {
        assert_eq!(stack.host_params(empty), Ok(&[][..]));
        assert_eq!(stack.host_results(empty), Ok(&mut [][..]));
    }
}

#[test]
fn a_host_tail_call_copies_its_parameters_and_returns() {
    let mut stack = after(&[Request::Push(P), Request::Push(Q), Request::Set(1, 8), Request::Set(2, 9)]);
    let (head, params, results, instance) = (1, 2, 4, 2);
    let call = stack
        .return_prepare_host_frame(ReturnHostArgs {
            head,
            params,
            results,
            instance,
        })
        .expect("accepted");
    let (ip, start, instance) = (101, 0, 1);
    assert_eq!(call.popped, Popped::Returned { ip, start, instance });
    assert_eq!(call.frame, frame(2, 6, 2, 4));
    assert_eq!(stack.host_params(call.frame), Ok(&[8, 9][..]));
    assert_eq!((stack.depth(), stack.len(), stack.current()), (1, 6, Some(1)));
}

#[test]
fn a_host_tail_call_of_the_last_frame_still_has_its_frame() {
    let mut stack = after(&[Request::Push(P)]);
    let args = ReturnHostArgs {
        results: 5,
        ..ReturnHostArgs::default()
    };
    let call = stack.return_prepare_host_frame(args).expect("accepted");
    assert_eq!((call.popped, call.frame), (Popped::Last, frame(0, 5, 0, 5)));
    assert_eq!((stack.depth(), stack.len()), (0, 5));
    refused(&mut stack, Request::ReturnHost(args), Refusal::NoFrame);
}
