//! Document 01's refusal lists as data: for a request in a world its lines in order, each with whether it holds.
//!
//! Written from the document alone. The answer of every entry is compared with the number of the first line that holds.

use super::line::Line;
use super::moves::Move;
use super::nine::{nine, top_start};
use crate::plain::{HostFrame, KINDS, Request};
use crate::reading::Reading;

/// A list's name and its lines.
pub type List = (&'static str, Vec<Line>);

/// The list of a move.
pub fn list(world: &Reading, asked: &Move) -> List {
    match asked {
        Move::Registers(_) => ("register sync", nine(world, 0)),
        Move::Part(frame) => ("host part", part_lines(world, frame)),
        Move::Ask(q) => (KINDS[q.kind as usize - 1], request_lines(world, q)),
    }
}

fn request_lines(world: &Reading, q: &Request) -> Vec<Line> {
    let no_frame = Line::when("no frame", 4, world.state.count == 0);
    match q.kind {
        1 => push_lines(world, q),
        2 => after(nine(world, 2), vec![no_frame]),
        3 => replace_lines(world, q, no_frame),
        4 => host_lines(world, q),
        5 => return_lines(world, q, no_frame),
        6 => after(nine(world, 1), vec![no_frame]),
        7 => {
            let no_instance = Line::when("no current instance", 8, world.state.current.is_none());
            after(nine(world, 1), vec![no_frame, no_instance])
        }
        8 => nine(world, 0),
        _ => after(nine(world, 1), vec![no_frame, beyond(world, &[q.head, 1], 0)]),
    }
}

fn after(mut lines: Vec<Line>, more: Vec<Line>) -> Vec<Line> {
    lines.extend(more);
    lines
}

/// Lines that hold also where a request needs nothing.
fn also_if(lines: Vec<Line>, nothing: bool) -> Vec<Line> {
    lines.into_iter().map(|line| line.also_if(nothing)).collect()
}

/// Push 9, 2 (depth), 4 or 6, 5, 2, 3.
fn push_lines(world: &Reading, q: &Request) -> Vec<Line> {
    let (given, count) = (q.caller.is_some(), world.state.count);
    let [above_locals, above_slots] = disorder(q);
    let calling = vec![
        Line::equal("count equals D", 2, count, world.state.depth),
        Line::when("caller ip without a frame", 4, given && count == 0),
        Line::when("no caller ip over a frame", 6, !given && count > 0),
        above_locals,
        above_slots,
    ];
    let [above_height, above_lent] = growth(world, &[q.head, q.slots]);
    let sized = vec![
        Line::when("slots 0 and head not 0", 5, q.slots == 0 && q.head != 0),
        above_height.and(q.slots > 0),
        above_lent.and(q.slots > 0),
    ];
    after(also_if(after(nine(world, 1), calling), q.slots == 0), sized)
}

/// Replace 9, 4, 5, 2, 3, 7: the 7 with the length after growth, with no parameters too, and not where slots are 0.
fn replace_lines(world: &Reading, q: &Request, no_frame: Line) -> Vec<Line> {
    let [above_locals, above_slots] = disorder(q);
    let [above_height, above_lent] = growth(world, &[q.slots]);
    let counts = [q.head, q.params];
    let beyond_grown = beyond(world, &counts, sum(world, &[q.slots]))
        .slip("with len before growth", beyond(world, &counts, 0).holds)
        .unless(q.slots == 0);
    let calling = after(nine(world, 1), vec![no_frame, above_locals, above_slots]);
    let sized = vec![
        above_height.and(q.slots > 0),
        above_lent.and(q.slots > 0),
        only_with_params(beyond_grown, q),
    ];
    after(also_if(calling, q.slots == 0), sized)
}

/// Host 9, 4, 2, 3: it grows also where both counts are 0, and without a frame it needs an ip for a 4.
fn host_lines(world: &Reading, q: &Request) -> Vec<Line> {
    let alone = world.state.count == 0;
    let no_frame = Line::when("caller ip without a frame", 4, q.caller.is_some() && alone).slip("given or not", alone);
    let [above_height, above_lent] = larger_growth(world, q, &[q.head]);
    let lines = after(nine(world, 1), vec![no_frame, above_height, above_lent]);
    also_if(lines, q.params.max(q.results) == 0)
}

/// Return-host 9, 4, 7, 2, 3: the 7 with the length before growth, with no parameters too; only 9 and 4 where both counts are 0.
fn return_lines(world: &Reading, q: &Request, no_frame: Line) -> Vec<Line> {
    let size = q.params.max(q.results);
    let [above_height, above_lent] = larger_growth(world, q, &[]);
    let counts = [q.head, q.params];
    let beyond_now = beyond(world, &counts, 0)
        .slip("with len after growth", beyond(world, &counts, sum(world, &[size])).holds)
        .unless(size == 0);
    let sized = vec![
        only_with_params(beyond_now, q),
        above_height.and(size > 0),
        above_lent.and(size > 0),
    ];
    after(also_if(after(nine(world, 2), vec![no_frame]), size == 0), sized)
}

/// Host part 9, 11. A difference is what a machine makes of it: it wraps, which must not show since the order is tested before. In exact
/// numbers the order would follow from the size.
fn part_lines(world: &Reading, frame: &HostFrame) -> Vec<Line> {
    let size = u64::from(frame.params.max(frame.results));
    let difference = frame.end.wrapping_sub(frame.start);
    let other = Line::when("size not the larger count", 11, difference != size)
        .slip("but params", difference != frame.params.into())
        .slip("but results", difference != frame.results.into());
    let lines = [
        Line::above("end above len", 11, frame.end.into(), world.state.len.into()),
        Line::above("end below start", 11, frame.start.into(), frame.end.into()),
        other,
    ];
    let spared = lines.map(|line| line.unless(size == 0)).to_vec();
    after(also_if(nine(world, 0), size == 0), spared)
}

/// The top start and so many cells more; 0 where the words do not have the top frame, which shows nothing.
fn sum(world: &Reading, counts: &[u16]) -> u128 {
    let more: u128 = counts.iter().map(|count| u128::from(*count)).sum();
    top_start(world).map_or(0, |start| start + more)
}

/// Not params ≤ locals ≤ slots.
fn disorder(q: &Request) -> [Line; 2] {
    [
        Line::above("params above locals", 5, q.params.into(), q.locals.into()),
        Line::above("locals above slots", 5, q.locals.into(), q.slots.into()),
    ]
}

/// Growing to a needed length.
fn growth(world: &Reading, counts: &[u16]) -> [Line; 2] {
    let needed = sum(world, counts);
    [
        Line::above("needed above M", 2, needed, world.state.height.into()),
        Line::above("needed above L", 3, needed, world.state.cells.into()),
    ]
}

/// Growing to the larger of parameters and results above something.
fn larger_growth(world: &Reading, q: &Request, head: &[u16]) -> [Line; 2] {
    let with = |count: u16| growth(world, &[head, &[count]].concat()).map(|line| line.holds);
    let [by_params, by_results] = [with(q.params), with(q.results)];
    let [above_height, above_lent] = growth(world, &[head, &[q.params.max(q.results)]].concat());
    let slips = |line: Line, i: usize| line.slip("by params alone", by_params[i]).slip("by results alone", by_results[i]);
    [slips(above_height, 0), slips(above_lent, 1)]
}

/// An end beyond the length, or beyond what it has grown to.
fn beyond(world: &Reading, counts: &[u16], grown: u128) -> Line {
    Line::above("beyond len", 7, sum(world, counts), grown.max(world.state.len.into()))
}

fn only_with_params(beyond: Line, q: &Request) -> Line {
    let holds = beyond.holds && q.params > 0;
    beyond.slip("only with parameters", holds)
}
