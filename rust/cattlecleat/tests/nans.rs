//! Registers by their bits: NaNs, quiet and signalling, of both signs, zeros and infinities, on every way that a register goes.
use crate::world::{Owned, P, Q, after};
use cattlecleat::{Registers, Request, Stack, raw};

/// Quiet and signalling NaNs of both signs, some with a payload, infinities and zeros.
const SINGLES: [u32; 10] = [
    0x7FC0_0000,
    0xFFC0_0000,
    0x7FE1_2345,
    0xFFE1_2345,
    0x7F80_0001,
    0xFF80_0001,
    0x7FA5_A5A5,
    0xFFBF_FFFF,
    0xFF80_0000,
    0x8000_0000,
];

const DOUBLES: [u64; 10] = [
    0x7FF8_0000_0000_0000,
    0xFFF8_0000_0000_0000,
    0x7FFC_0123_4567_89AB,
    0xFFFC_0123_4567_89AB,
    0x7FF0_0000_0000_0001,
    0xFFF0_0000_0000_0001,
    0x7FF5_A5A5_A5A5_A5A5,
    0xFFF7_FFFF_FFFF_FFFF,
    0xFFF0_0000_0000_0000,
    0x8000_0000_0000_0000,
];

type Bits = (u64, u32, u64);

fn bits(regs: Registers) -> Bits {
    (regs.ireg, regs.freg32.to_bits(), regs.freg64.to_bits())
}

/// Every single beside every double, stored over P.
fn each(mut try_with: impl FnMut(Owned, Bits)) {
    let pairs = SINGLES
        .iter()
        .flat_map(|single| DOUBLES.iter().map(move |double| (*single, *double)));
    for (single, double) in pairs {
        let ireg = u64::from(single) ^ double;
        let mut stack = after(&[Request::Push(P)]);
        let (freg32, freg64) = (f32::from_bits(single), f64::from_bits(double));
        stack.sync_regs(Registers { ireg, freg32, freg64 }).expect("the state is whole");
        try_with(stack, (ireg, single, double));
    }
}

#[test]
fn stored_and_read() {
    each(|mut stack, stored| {
        assert_eq!(bits(stack.regs()), stored);
        assert_eq!(bits(stack.state().regs), stored);
        assert_eq!(bits(stack.restore_frame().expect("a frame and an instance").regs), stored);
    });
}

#[test]
fn kept_through_requests_accepted_and_refused() {
    each(|mut stack, stored| {
        stack.push_frame(Q).expect("accepted");
        assert_eq!(bits(stack.regs()), stored);
        stack.push_frame(P).expect_err("no caller ip over a frame");
        stack.pop_frame(2).expect("accepted");
        assert_eq!(bits(stack.restore_frame().expect("a frame and an instance").regs), stored);
        stack.pop_frame(2).expect("accepted");
        stack.restore_frame().expect_err("no frame");
        assert_eq!(bits(stack.regs()), stored);
    });
}

#[test]
fn kept_through_a_replay_and_by_a_host() {
    let trace = [Request::Push(Q), Request::Restore, Request::Sync(7), Request::Pop(2)]
        .map(Request::to_record)
        .concat();
    each(|mut stack, stored| {
        assert_eq!(stack.replay(100, &trace).records, 4);
        let (state, words, cells) = stack.into_parts();
        assert_eq!(bits(raw::read_registers(state)), stored);
        let mut again = Stack::resume(state, words, cells);
        assert_eq!(bits(again.restore_frame().expect("a frame and an instance").regs), stored);
    });
}

#[test]
fn zero_after_a_reset_and_in_other_answers() {
    each(|mut stack, _| {
        let pushed = stack.ask(Request::Push(Q)).expect("accepted");
        assert_eq!(bits(pushed.regs), (0, 0, 0));
        stack.reset().expect("the state is whole");
        assert_eq!(bits(stack.regs()), (0, 0, 0));
    });
}

#[test]
fn a_refused_store_keeps_the_old_ones() {
    each(|stack, stored| {
        let (state, words, _) = stack.into_parts();
        let mut short = Stack::resume(state, words, vec![0; 9]);
        short
            .sync_regs(Registers::default())
            .expect_err("the cells are fewer than the state says");
        assert_eq!(bits(short.regs()), stored);
    });
}

#[test]
fn each_put_in_place_changes_what_it_names() {
    each(|stack, (ireg, single, double)| {
        let (mut state, _, _) = stack.into_parts();
        let came = state;
        for (other_single, other_double) in SINGLES.iter().zip(DOUBLES) {
            state.regs.put_ireg(!ireg);
            assert_eq!(bits(state.regs), (!ireg, single, double));
            state.regs.put_freg32(f32::from_bits(*other_single));
            assert_eq!(bits(state.regs), (!ireg, *other_single, double));
            state.regs.put_freg64(f64::from_bits(other_double));
            assert_eq!(bits(state.regs), (!ireg, *other_single, other_double));
            state.regs.zero();
            assert_eq!(bits(state.regs), (0, 0, 0));
            state.regs.put_all(ireg, f32::from_bits(single), f64::from_bits(double));
            assert_eq!(state, came);
        }
    });
}
