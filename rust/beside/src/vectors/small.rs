//! Small worlds for the search: a sound one, most often broken in one place or two, and something to ask in it.

use super::moves::Move;
use crate::case::FRAME_WORDS;
use crate::plain::{HostFrame, Regs, Request, State};
use crate::reading::Reading;
use crate::rng::Rng;

/// A world and what is asked in it. The words are those that there are, as far as they are good.
pub fn candidate(rng: &mut Rng, there: &[u64]) -> (Reading, Move) {
    let mut world = sound(rng, there);
    for _ in 0..rng.below(3) {
        spoil(rng, &mut world);
    }
    let asked = asked(rng, &world);
    (world, asked)
}

/// Up to three frames and nine cells. Words for more frames than there may be are good ones too.
fn sound(rng: &mut Rng, there: &[u64]) -> Reading {
    let depth = rng.below(4);
    let [height, cells] = [rng.below(10), rng.below(10)];
    let words = FRAME_WORDS * (depth + rng.pick(&[0, 1, 2]));
    let len = rng.below(height.min(cells) + 1);
    let rows = (10..)
        .zip(there.chunks_exact(FRAME_WORDS as usize))
        .take((words / FRAME_WORDS) as usize);
    let rows = rows.flat_map(|(ip, row)| good_row(rng, ip, row, len)).collect();
    let state = State {
        depth,
        height,
        words,
        cells,
        count: rng.below(depth + 1),
        len,
        current: rng.once_in(2).then_some(1),
        regs: Regs::default(),
    };
    Reading {
        state,
        words: rows,
        cells: vec![0; cells as usize],
    }
}

/// The row that there is, if it is good; or another, so that few words need to be given.
fn good_row(rng: &mut Rng, ip: u64, row: &[u64], len: u64) -> [u64; 4] {
    match *row {
        [ip, start, flag, debt] if start <= len && flag <= 1 && (flag == 1 || debt == 0) && !rng.once_in(6) => [ip, start, flag, debt],
        _ => {
            let [flag, debt] = rng.pick(&[[0, 0], [1, 0], [1, 2]]);
            [ip, rng.pick(&[0, 0, len]), flag, debt]
        }
    }
}

/// Breaks one thing, or moves it to where it is just not broken.
fn spoil(rng: &mut Rng, world: &mut Reading) {
    let s = &mut world.state;
    let one_off = |rng: &mut Rng, number: u64| if rng.once_in(2) { number + 1 } else { number.saturating_sub(1) };
    match rng.below(20) {
        0 => s.words = one_off(rng, s.words),
        1 => s.cells = one_off(rng, s.cells),
        2 => world.words.resize(world.words.len() + 1, 0),
        3 => world.cells.resize(world.cells.len() + 1, 0),
        4 => s.depth = rng.pick(&[65_536, 65_537, 1 << 62, (1 << 62) + 1]),
        5 => s.height = rng.pick(&[1_048_576, 1_048_577, u64::MAX]),
        6 => s.cells = rng.pick(&[1_048_576, 1_048_577]),
        7 => s.depth += rng.range(1, 2),
        8 => s.count = s.depth.min(65_537) + rng.below(3),
        9 => s.len = s.cells + 1,
        10 => s.len = s.height.min(70_000) + 1,
        11 => {
            world.words.pop();
            s.words = world.words.len() as u64;
        }
        _ => spoil_row(rng, s, &mut world.words),
    }
}

/// A word of one of the two newest frames.
fn spoil_row(rng: &mut Rng, s: &State, words: &mut [u64]) {
    let row = s.count.wrapping_sub(rng.range(1, 2));
    let (field, word) = rng.pick(&[
        (1, s.len + 1),
        (1, s.len + 2),
        (1, s.len),
        (1, 1 << 40),
        (2, 2),
        (2, 3),
        (2, 0),
        (2, 1),
        (3, 1),
    ]);
    let at = usize::try_from(row.wrapping_mul(FRAME_WORDS).wrapping_add(field)).ok();
    at.and_then(|at| words.get_mut(at)).into_iter().for_each(|place| *place = word);
}

fn asked(rng: &mut Rng, world: &Reading) -> Move {
    match rng.below(16) {
        0 => Move::integer(rng.below(9)),
        1..=3 => Move::Part(part(rng, world.state.len)),
        _ => Move::Ask(request(rng)),
    }
}

/// Small counts, in order or not, and now and then large ones.
fn request(rng: &mut Rng) -> Request {
    let kind = rng.pick(&[1, 1, 1, 2, 3, 3, 4, 4, 5, 5, 6, 7, 8, 9]);
    let (call, host) = (matches!(kind, 1 | 3), matches!(kind, 4 | 5));
    let mut count = |used: bool| {
        let any = rng.pick(&[0, 0, 0, 1, 1, 2, 3, 4, 6, 9, 20]);
        if used { any } else { 0 }
    };
    let [head, params, locals, slots, results] = [
        count(call || host || kind == 9),
        count(call || host),
        count(call),
        count(call),
        count(host),
    ];
    let caller = kind == 6 || (matches!(kind, 1 | 4) && rng.once_in(2));
    let instance = matches!(kind, 2 | 5) || (call && rng.once_in(2));
    Request {
        kind,
        head,
        params,
        locals,
        slots,
        results,
        caller: caller.then_some(5),
        callee: if call || kind == 9 { 6 } else { 0 },
        instance: instance.then_some(3),
    }
}

/// A frame in the cells, or one wrong by a little, or one whose size is right only where the difference wraps.
fn part(rng: &mut Rng, len: u64) -> HostFrame {
    let size = rng.below(3) as u16;
    let start = rng.below(4);
    let end = start + u64::from(size);
    let (start, end) = rng.pick(&[
        (start, end),
        (start, end + 1),
        (start + 1, end),
        (end, start),
        (len, len + u64::from(size)),
        (u64::MAX, u64::from(size).wrapping_sub(1)),
    ]);
    HostFrame {
        start,
        end,
        params: size,
        results: rng.below(u64::from(size) + 1) as u16,
    }
}
