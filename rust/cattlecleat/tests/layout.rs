//! The sizes of the plain structs, which the C header's structs have too.
use cattlecleat::raw::{Aligned, Answer, Done, HostFrame, Part, Read, Reason, Registers, Request, Run, State};
use cattlecleat::raw::{Fed, Frame, Host, Hosted, Offset, Push, Replace, ReturnHost, Returned, Tape};
use std::mem::{offset_of, size_of};

#[test]
fn the_structs_are_as_large_as_in_c() {
    assert_eq!((size_of::<Registers>(), size_of::<HostFrame>()), (24, 24));
    assert_eq!((size_of::<State>(), size_of::<Request>(), size_of::<Answer>()), (88, 64, 168));
    assert_eq!((size_of::<Part>(), size_of::<Run>(), size_of::<Read>()), (32, 128, 72));
    assert_eq!((size_of::<Aligned>(), size_of::<Reason>(), size_of::<Done>()), (16, 16, 40));
    assert_eq!((size_of::<Push>(), size_of::<Replace>()), (48, 32));
    assert_eq!((size_of::<Host>(), size_of::<ReturnHost>()), (24, 16));
    assert_eq!((size_of::<Offset>(), size_of::<Frame>()), (16, 32));
    assert_eq!((size_of::<Hosted>(), size_of::<Returned>()), (40, 56));
    assert_eq!((size_of::<Tape>(), size_of::<Fed>()), (184, 192));
}

/// Its size would not show two members exchanged.
#[test]
fn a_tape_lies_as_in_c() {
    assert_eq!((offset_of!(Tape, run), offset_of!(Tape, kept)), (0, 128));
    assert_eq!((offset_of!(Tape, held), offset_of!(Tape, end_flag)), (168, 176));
    assert_eq!((offset_of!(Fed, number), offset_of!(Fed, tape)), (0, 8));
}
