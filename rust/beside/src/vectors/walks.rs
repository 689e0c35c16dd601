//! Random walks from fixed seeds through each opening, in one mood after another.

use super::maker::{Made, Maker};
use super::moves::Move;
use super::openings::{WALKED, WALKED_ALONE};
use super::walker::{MOODS, Walker};
use crate::plain::HostFrame;

const ABOUT: &str = "Random walks: deep calls, sets and tail calls, host calls, returns, resets.";

pub fn make(maker: &mut Maker) -> Made<()> {
    maker.series("walks", ABOUT);
    make_beside(maker)?;
    make_alone(maker)
}

/// Beside the Rust.
fn make_beside(maker: &mut Maker) -> Made<()> {
    for (seed, (opening, stretch)) in (1..).zip(WALKED) {
        maker.anew(&format!("{}, seed {seed}", named(opening)));
        maker.open(opening)?;
        walk(maker, seed, stretch)?;
    }
    Ok(())
}

/// Without it: then every cell is compared, also those that no one wrote.
fn make_alone(maker: &mut Maker) -> Made<()> {
    for (seed, (opening, stretch)) in (101..).zip(WALKED_ALONE) {
        maker.anew(&format!("{}, seed {seed}, every cell", named(opening)));
        maker.open(opening)?;
        maker.give_cell(0, seed);
        walk(maker, seed, stretch)?;
    }
    Ok(())
}

fn named([bytes, depth, words, cells]: [u64; 4]) -> String {
    format!("M {}, L {cells}, D {depth}, {words} words", bytes / 8)
}

/// So many steps in each mood.
fn walk(maker: &mut Maker, seed: u64, stretch: usize) -> Made<()> {
    let mut walker = Walker::new(seed);
    for (name, mood) in MOODS {
        maker.says(name);
        for _ in 0..stretch {
            let chosen = walker.next(&mood, &maker.world());
            step(maker, &mut walker, &chosen)?;
        }
    }
    Ok(())
}

/// Takes a step. The last host frame is what host parts are made from.
fn step(maker: &mut Maker, walker: &mut Walker, chosen: &Move) -> Made<()> {
    let answer = maker.asked(chosen)?;
    if answer.host != HostFrame::default() {
        walker.host = answer.host;
    }
    Ok(())
}
