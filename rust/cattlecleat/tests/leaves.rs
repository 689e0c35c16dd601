//! Conversions, the aligned ip, the done slot, and the refusals' numbers and words.
use cattlecleat::{DoneReason, DoneSlot, Refusal, Register, align_relative_to, raw};
use std::error::Error;

#[test]
fn numbers_of_8_and_16_bits_one_by_one() {
    for n in 0..=u16::MAX {
        let register = u64::from(n);
        assert_eq!((n.into_register(), (n as i16).into_register()), (register, register));
        assert_eq!(
            (u16::from_register(register | 1 << 16), i16::from_register(register | 1 << 63)),
            (n, n as i16)
        );
        assert_eq!((u8::from_register(register), i8::from_register(register)), (n as u8, n as i8));
        assert_eq!(
            ((n as u8).into_register(), (n as i8).into_register()),
            (register % 256, register % 256)
        );
    }
}

#[test]
fn numbers_of_32_bits_at_their_ends() {
    for n in [0, 1, -1, i32::MIN, i32::MAX, 0x1234_5678] {
        let register = u64::from(n as u32);
        assert_eq!((n.into_register(), (n as u32).into_register()), (register, register));
        let dirty = register | 0xDEAD_BEEF << 32;
        assert_eq!((i32::from_register(dirty), u32::from_register(dirty)), (n, n as u32));
    }
}

#[test]
fn numbers_of_64_bits_at_their_ends() {
    for n in [0, 1, -1, i64::MIN, i64::MAX] {
        assert_eq!((n.into_register(), (n as u64).into_register()), (n as u64, n as u64));
        assert_eq!((i64::from_register(n as u64), u64::from_register(n as u64)), (n, n as u64));
    }
}

#[test]
fn bools_and_types_without_a_name() {
    assert_eq!([false, true].map(Register::into_register), [0, 1]);
    assert_eq!([0, 1, 2, 256, 1 << 63].map(bool::from_register), [false, true, true, true, true]);
    assert_eq!([0, 10, u64::MAX].map(|kind| raw::to_register(kind, u64::MAX)), [u64::MAX; 3]);
    assert_eq!([5, 6, 7].map(|kind| raw::from_register(kind, u64::MAX)), [u64::MAX; 3]);
}

#[test]
fn the_aligned_ip_at_its_ends() {
    assert_eq!(align_relative_to(1004, 1003), Ok(1011));
    assert_eq!(align_relative_to(u64::MAX, 7), Ok(u64::MAX));
    assert_eq!(align_relative_to(u64::MAX - 7, 0), Ok(u64::MAX - 7));
    for (ip, base) in [(u64::MAX, 8), (u64::MAX - 6, 0), (0, 1), (999, 1000)] {
        assert_eq!(align_relative_to(ip, base), Err(Refusal::BadAddress), "{ip} {base}");
    }
}

#[test]
fn the_slot_holds_at_most_one_reason() {
    let reasons = [
        DoneReason::Returned(u64::MAX),
        DoneReason::HostError,
        DoneReason::OutOfFuel(0),
        DoneReason::Error,
    ];
    for reason in reasons {
        let mut slot = DoneSlot::default();
        assert_eq!(slot.done_with(reason), Ok(()));
        let filled = slot;
        assert_eq!(slot.done_with(DoneReason::Returned(5)), Err(Refusal::AlreadyFilled));
        assert_eq!(slot, filled);
        assert_eq!(slot.take_done_reason(), Ok(reason));
        assert_eq!(slot, DoneSlot::default());
        assert_eq!(slot.take_done_reason(), Err(Refusal::NothingToTake));
    }
}

#[test]
fn refusals_have_numbers_and_words() {
    for number in (2..=15).chain([22]) {
        let refusal = Refusal::from_number(number).expect("a document has it");
        assert_eq!(refusal.number(), number);
        let error: &dyn Error = &refusal;
        let words = error.to_string();
        assert!(words.starts_with(&format!("refusal {number}: ")) && words.len() > 20, "{words}");
    }
    assert_eq!([0, 1, 16, 21, 23, u64::MAX].map(Refusal::from_number), [None; 6]);
}
