//! Calls around multiples of 4,096, where the width of a row changes, in windows that reach
//! past them, up to exactly 65,536 cells.

use super::expansion::{Draft, Window, near};
use super::long::log_scaled;
use crate::oracle::LIST_LIMIT;
use crate::protocol::{Question, Reply};
use crate::rng::Rng;

/// The edges that calls are drawn around, and the gaps of their windows.
pub const EDGES: [u64; 3] = [4096, 8192, LIST_LIMIT as u64 - 4096];
pub const GAPS: [u64; 5] = [0, 1, 7, 8, 4096];

/// Calls in turn over a window before there is a new one, on the average.
const TURNS: u64 = 100;

/// The calls of one run. They draw from numbers of their own, so that other questions of a
/// seed stay what they are.
pub struct Edges {
    rng: Rng,
    window: Window,
}

impl Edges {
    pub fn new(seed: u64) -> Self {
        Self {
            rng: Rng::new(seed ^ 1 << 63),
            window: Window::default(),
        }
    }

    /// The next question, or none: two of three are asked here.
    pub fn question(&mut self) -> Option<(Question, Reply)> {
        if self.rng.once_in(3) {
            return None;
        }
        let rng = &mut self.rng;
        if self.window.cells() == 0 || rng.once_in(TURNS) {
            let cells = cells(rng);
            self.window.fill(rng, cells);
        }
        let draft = draft(rng, self.window.cells() as u64);
        let refusal = rng.once_in(8).then(|| rng.pick(&[9, 9, 9, 2, 3, 1]));
        Some(self.window.asked_for(rng, draft, refusal))
    }
}

/// A window past one of the edges; few are as long as a window can be.
fn cells(rng: &mut Rng) -> usize {
    let past = 1 + rng.place(200);
    match rng.below(50) {
        0 => LIST_LIMIT,
        1 => EDGES[2] as usize + 1 + rng.place(4095),
        2..=20 => EDGES[1] as usize + past,
        _ => EDGES[0] as usize + past,
    }
}

/// A call in a window of so many cells, its source or its destination or both over an edge
/// or close to one.
fn draft(rng: &mut Rng, cells: u64) -> Draft {
    let kind = rng.below(3);
    let gap = rng.pick(&GAPS);
    let apart = if kind == 1 { gap } else { 0 };
    let count = match rng.below(40) {
        0 => log_scaled(rng, cells as usize) as u64,
        1..=3 => rng.below(9),
        _ => 9 + rng.below(60),
    };
    let count = count.min(cells - apart);
    let last = cells - apart - count;
    let mut at_edge = |apart: u64| {
        let edges = EDGES.iter().filter(|edge| **edge < cells);
        let edges: Vec<u64> = edges.map(|edge| edge - apart).collect();
        let before = 1 + rng.below(count + 1);
        rng.pick(&edges).saturating_sub(before).min(last)
    };
    let [source, dest] = [at_edge(0), at_edge(apart)];
    let elsewhere = [rng.below(last + 1), near(rng, source).min(last)];
    let [src, dst] = match (kind, rng.below(4)) {
        (1, 0 | 1) => [source, source + gap],
        (1, _) => [dest, dest + gap],
        // The index of a Write near an edge, which must not count.
        (2, 0) => [elsewhere[0], dest],
        (2, 1) => [source, rng.below((1 << 32) - count)],
        (2, _) => [source, dest],
        (_, 0) => [source, elsewhere[0]],
        (_, 1) => [elsewhere[0], dest],
        (_, 2) => [source, elsewhere[1]],
        _ => [source, dest],
    };
    Draft {
        kind,
        timestamp: rng.below(1000),
        src,
        dst,
        count,
        gap,
        short: [0, 0],
        most: cells,
    }
}

/// Which edges lie inside the bytes that a call moves, source or destination.
pub fn inside(kind: u64, src: u64, dst: u64, count: u64) -> impl Iterator<Item = u64> {
    let over = move |start: u64, edge: u64| start < edge && edge < start + count;
    let met = move |edge: &u64| over(src, *edge) || (kind != 2 && over(dst, *edge));
    EDGES.into_iter().filter(met)
}
