//! The load against the same loop in Rust.

use super::{Report, SIZES, Times, answered, race_two};
use crate::exported;
use crate::oracle::records::HANDED;
use crate::oracle::{Answer, LIST_LIMIT};
use std::hint::black_box;

const MULTIPLIER: u64 = 6_364_136_223_846_793_005;
const INCREMENT: u64 = 1_442_695_040_888_963_407;

pub fn run(report: &mut Report) {
    if report.wants("generate_load") {
        report.sizes("generate_load", "the same loop in Rust", SIZES.map(load));
    }
}

fn load(calls: usize) -> Times {
    let (mut ours, mut rust) = (vec![1; HANDED * calls], vec![2; HANDED * calls]);
    let mut answers = [answered(0); 2];
    let [of_ours, of_rust] = &mut answers;
    let (s, wanted) = black_box((2026, calls as u64));
    let times = race_two(
        calls,
        &mut || *of_ours = exported::generate_load(s, wanted, black_box(&mut ours)),
        &mut || *of_rust = plain(s, wanted, black_box(&mut rust)),
    );
    assert!(
        answers == [answered(calls); 2] && ours == rust,
        "loads: results differ"
    );
    times
}

/// A draw below the limit, of the next state.
fn draw(state: &mut u64, limit: u64) -> u64 {
    *state = state.wrapping_mul(MULTIPLIER).wrapping_add(INCREMENT);
    (*state >> 32) % limit
}

#[inline(never)]
fn plain(s: u64, calls: u64, out: &mut [u64]) -> Answer {
    let refused = |number| Answer {
        number,
        ..answered(0)
    };
    if calls > LIST_LIMIT as u64 {
        return refused(19);
    }
    if out.len() < HANDED * calls as usize {
        return refused(9);
    }
    let (mut state, mut index) = (s, 0);
    for (k, call) in (0..calls).zip(out.as_chunks_mut::<HANDED>().0) {
        let kind = draw(&mut state, 3);
        let count = draw(&mut state, 33);
        let src = draw(&mut state, 900);
        let drawn = draw(&mut state, 900);
        let dst = match kind {
            1 => src + 8,
            2 => index,
            _ => drawn,
        };
        index += if kind == 2 { count } else { 0 };
        *call = [kind, 4 * k, src, dst, count];
    }
    answered(calls as usize)
}
