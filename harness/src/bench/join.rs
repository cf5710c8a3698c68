//! The join against a plain merge in Rust on the same slices: with the same tests, and without
//! any.

use super::{Report, SIZES, Times, answered, race_two};
use crate::exported;
use crate::generate::join::JOIN;
use crate::oracle::records::HANDED;
use crate::oracle::{Answer, LIST_LIMIT};
use crate::rng::Rng;
use std::hint::black_box;

pub fn run(report: &mut Report) {
    if !report.wants(JOIN) {
        return;
    }
    let tested = SIZES.map(|calls| join(calls, plain));
    report.sizes(JOIN, "a plain merge in Rust, with the same tests", tested);
    let bare = SIZES.map(|calls| join(calls, merged));
    report.sizes(JOIN, "a plain merge in Rust that tests nothing", bare);
}

type Merge = fn(&[u64], &[u64], &mut [u64]) -> Answer;

/// So many calls, half in each list; a stamp is that of the call before, or one of the next
/// three.
fn join(calls: usize, merge: Merge) -> Times {
    let mut rng = Rng::new(1);
    let lists = [(); 2].map(|()| list(&mut rng, calls / 2));
    let (mut ours, mut rust) = (vec![1; HANDED * calls], vec![2; HANDED * calls]);
    let mut answers = [answered(0); 2];
    let [of_ours, of_rust] = &mut answers;
    let [first, second] = black_box(&lists);
    let times = race_two(
        calls,
        &mut || *of_ours = exported::join_calls(first, second, black_box(&mut ours)),
        &mut || *of_rust = merge(first, second, black_box(&mut rust)),
    );
    assert!(
        answers == [answered(calls); 2] && ours == rust,
        "joins: results differ"
    );
    times
}

fn list(rng: &mut Rng, calls: usize) -> Vec<u64> {
    let mut stamp = 0;
    let calls = rng.many(calls, |rng| {
        stamp += rng.below(4);
        [
            rng.below(3),
            stamp,
            rng.number(),
            rng.number(),
            rng.below(33),
        ]
    });
    calls.concat()
}

fn refused(number: u64, place: usize) -> Answer {
    Answer {
        number,
        place: place as u64,
        value: 0,
    }
}

/// The refusals of the join in its order, then the merge.
#[inline(never)]
fn plain(first: &[u64], second: &[u64], out: &mut [u64]) -> Answer {
    let lists = [first, second];
    for list in lists {
        if list.len().div_ceil(HANDED) > LIST_LIMIT {
            return refused(8, 0);
        }
    }
    for list in lists {
        let (calls, cut) = list.as_chunks::<HANDED>();
        if let Some(place) = calls.iter().position(|call| call[0] > 2) {
            return refused(10, place);
        }
        if !cut.is_empty() {
            return refused(10, calls.len());
        }
    }
    for list in lists {
        let calls = list.as_chunks::<HANDED>().0;
        if let Some(place) = calls.windows(2).position(|pair| pair[1][1] < pair[0][1]) {
            return refused(20, place + 1);
        }
    }
    if out.len() < first.len() + second.len() {
        return refused(9, 0);
    }
    merged(first, second, out)
}

/// The call with the lower stamp, of equal ones the first list's, until both lists are used up.
#[inline(never)]
fn merged(first: &[u64], second: &[u64], out: &mut [u64]) -> Answer {
    let (first, second) = (
        first.as_chunks::<HANDED>().0,
        second.as_chunks::<HANDED>().0,
    );
    let (mut i, mut j) = (0, 0);
    for call in out.as_chunks_mut::<HANDED>().0 {
        let of_first = i < first.len() && (j == second.len() || first[i][1] <= second[j][1]);
        if of_first {
            *call = first[i];
            i += 1;
        } else {
            *call = second[j];
            j += 1;
        }
    }
    answered(i + j)
}
