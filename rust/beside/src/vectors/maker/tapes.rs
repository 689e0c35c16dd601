//! Lines on a trace that comes in blocks: a tape laid down, its next block, its end.

use super::{Made, Maker};
use crate::reading::{Reading, StraightTape, handed_back};
use crate::vectors::call::{Call, tape_tokens};
use crate::vectors::desk::Desk;
use crate::vectors::text::{Row, Token};
use std::ops::Range;

impl Maker {
    /// The tape as the next block finds it.
    pub fn tape(&self) -> &StraightTape {
        &self.tape
    }

    /// Another tape, whose run has the present state.
    pub fn give_tape(&mut self, tape: StraightTape) {
        self.book.put(Row::of("tape", tape_tokens(&tape)));
        self.tape = tape;
    }

    /// The next block, bytes of the trace: 0 or 22. The Rust takes no part until the next opening.
    pub fn feed(&mut self, bytes: Range<usize>) -> Made<u64> {
        let mut world = self.world();
        let (number, tape) = self.tape.feed(&mut world, &self.trace[bytes.clone()]);
        let answer = [vec![Token::Number(number)], tape_tokens(&tape)].concat();
        self.tell_tape(&Call::Feed(bytes), answer, tape, world)?;
        Ok(number)
    }

    /// The end is told. The Rust takes no part until the next opening.
    pub fn finish(&mut self) -> Made<()> {
        let mut world = self.world();
        let tape = self.tape.finish(&mut world);
        self.tell_tape(&Call::Finish, tape_tokens(&tape), tape, world)
    }

    fn tell_tape(&mut self, call: &Call, answer: Vec<Token>, tape: StraightTape, world: Reading) -> Made<()> {
        self.rust = None;
        let after = Desk {
            current: handed_back(self.current, world.state.current),
            trace: self.trace.clone(),
            world,
            tape,
        };
        self.tell_after(call, answer, &after)
    }
}

#[cfg(test)]
mod tests {
    use crate::reading::StraightTape;
    use crate::vectors::desk::NO_TAPE;
    use crate::vectors::maker::{Made, Maker};

    /// A record of zeros, and two bytes of another.
    fn lines(maker: &mut Maker) -> Made<()> {
        maker.open([8, 0, 0, 1])?;
        maker.says("blocks");
        maker.byte(41, 0xab);
        maker.give_tape(StraightTape { fuel: 3, ..NO_TAPE });
        maker.feed(0..42)?;
        maker.finish()?;
        maker.feed(0..1).map(|_| ())
    }

    #[test]
    fn a_tape_is_told_behind_the_answer() {
        let mut maker = Maker::new();
        maker.file("small", "small");
        lines(&mut maker).expect("all agree");
        let none = ["0x0000000000000000"; 5].join(" ");
        let held = none.replacen("0x0000", "0x00ab", 1);
        let after = "| 0 1 0 1 0 0 - 0 0 0 | | 2000";
        let wanted = [
            "byte    41 171".to_string(),
            format!("tape    0 3 0 - 0 0 {none}"),
            format!("feed    0 42 |  0 1 3 1 - 2 0 {held} {after}"),
            format!("finish       | 2 3 2 - 0 1 {none}    {after}"),
            format!("feed    0  1 | 22 2 3 2 - 0 1 {none} {after}"),
        ];
        let files = maker.book.files().expect("no fault");
        let (_, text) = files[0].text.split_once("# blocks\n").expect("the comment");
        assert_eq!(text.lines().collect::<Vec<_>>(), wanted);
    }

    #[test]
    fn an_opening_lays_a_tape_of_zeros_down() {
        let mut maker = Maker::new();
        maker.file("small", "small");
        lines(&mut maker).expect("all agree");
        assert_eq!((maker.tape().number, maker.tape().end_flag), (2, 1));
        maker.open([8, 0, 0, 1]).expect("all agree");
        assert_eq!(*maker.tape(), NO_TAPE);
    }
}
