//! Stacks that requests make, so that the Rust follows; and groups of lines over them.

use super::claims::{all_asked, expect, opened};
use super::kinds::{IP, calling, naming, pop, push};
use crate::case::FRAME_WORDS;
use crate::plain::Request;
use crate::vectors::maker::{Made, Maker};

/// L of every scene; `len` is 6 unless D is 0.
pub const CELLS: u64 = 10;

/// M at its limit, in cells.
pub const HIGH: u64 = 1_048_576;

/// D, M in cells, and how many frames there are.
#[derive(Clone, Copy, Debug, PartialEq, Eq)]
pub struct Scene {
    depth: u64,
    height: u64,
    frames: usize,
}

/// So many frames of 3, with M in cells.
pub const fn on(height: u64, frames: usize) -> Scene {
    Scene { depth: 3, height, frames }
}

/// No frame and room for none.
pub const FLAT: Scene = Scene {
    depth: 0,
    height: 12,
    frames: 0,
};

/// They begin at 0, 2 and 4 and reach cell 6 each; the one in the middle has a debt.
const FRAMES: [(Request, u64); 3] = [
    (naming(Some(1), calling(100, push(None, [0, 0, 0, 6]))), 0),
    (naming(Some(2), calling(200, push(IP, [2, 0, 0, 4]))), 0),
    (calling(300, push(Some(201), [2, 0, 0, 2])), 0),
];

/// What a group says, and its lines: over which scene, what is asked, and the number that must come.
pub type Group = (&'static str, &'static [(Scene, Request, u64)]);

impl Scene {
    /// Opens it and pushes its frames. Without frames one comes and goes, so that `len` is 6.
    pub fn stand(&self, maker: &mut Maker) -> Made<()> {
        opened(maker, [8 * self.height, self.depth, FRAME_WORDS * self.depth + 1, CELLS])?;
        all_asked(maker, &FRAMES[..self.frames])?;
        if self.frames == 0 && self.depth > 0 {
            all_asked(maker, &[FRAMES[0], (pop(1), 1)])?;
        }
        Ok(())
    }
}

/// Groups one after another. A scene stands as long as everything is refused.
pub fn tell(maker: &mut Maker, groups: &[Group]) -> Made<()> {
    let mut standing = None;
    for (words, lines) in groups {
        maker.says(words);
        for (scene, q, number) in *lines {
            if standing != Some(*scene) {
                scene.stand(maker)?;
            }
            expect(format!("{words}: {q:?}"), maker.ask(q)?.number, *number)?;
            standing = (*number > 1).then_some(*scene);
        }
    }
    Ok(())
}

/// A number that 9 comes before: first over a `len` above L, then over the scene as it is.
pub fn nine_before(maker: &mut Maker, words: &str, scene: Scene, asked: (Request, u64)) -> Made<()> {
    maker.says(words);
    scene.stand(maker)?;
    let good = *maker.state();
    let (lent_words, lent_cells) = (good.words as usize, good.cells as usize);
    let mut broken = good;
    broken.len = CELLS + 1;
    maker.give(broken, lent_words, lent_cells);
    all_asked(maker, &[(asked.0, 9)])?;
    maker.give(good, lent_words, lent_cells);
    all_asked(maker, &[asked]).map(|_| ())
}
