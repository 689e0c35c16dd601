//! Two shared slices of one call may be the same memory: both are only read, and the answer is the one for two that hold as much.
use cattlecleat::raw::{HostFrame, Registers, host_part, open, sync_registers};

#[test]
fn shared_slices_may_be_the_same() {
    let (one, other) = ([0u64; 12], [0u64; 12]);
    let opened = open(96, 3, &one, &one);
    assert_eq!(opened, open(96, 3, &one, &other));
    let mut state = opened.state;
    state.len = 5;
    let regs = Registers {
        ireg: 7,
        ..Registers::default()
    };
    let frame = HostFrame {
        start: 2,
        end: 4,
        params: 2,
        results: 1,
    };
    let synced = sync_registers(state, &one, &one, regs);
    assert_eq!((synced.number, synced), (0, sync_registers(state, &one, &other, regs)));
    let part = host_part(state, &one, &one, frame);
    assert_eq!((part.number, part), (0, host_part(state, &one, &other, frame)));
}
