//! README.md's block of Rust, word for word (tools/snippets).

#[test]
fn the_block_of_the_readme() -> Result<(), cattlecleat::Refusal> {
    use cattlecleat::{FRAME_WORDS, Limits, Popped, PushArgs, Stack};

    let limits = Limits { depth: 64, bytes: 32_768 };
    let mut stack = Stack::open(limits, vec![0; 64 * FRAME_WORDS], vec![0; 4096])?;
    let call = PushArgs {
        callee: 100,
        locals: 2,
        slots: 4,
        instance: Some(1),
        ..PushArgs::default()
    };
    assert_eq!(stack.push_frame(call)?, 0); // the start of the new frame
    assert_eq!(stack.pop_frame(1)?, Popped::Last);
    Ok(())
}
