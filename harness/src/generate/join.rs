//! Pairs of call lists for the join: many equal stamps in both, all refusals, several at once.

use super::numbers::{edge, junk, room};
use crate::oracle::LIST_LIMIT;
use crate::oracle::records::HANDED;
use crate::protocol::{Argument, Question};
use crate::rng::Rng;

/// The function.
pub const JOIN: &str = "join_calls";

/// What a list can be refused by, before 9.
pub const REFUSALS: [u64; 3] = [8, 10, 20];

pub fn asked(first: Vec<u64>, second: Vec<u64>, joined: impl Into<Argument>) -> Question {
    Question::new(JOIN, vec![first.into(), second.into(), joined.into()])
}

/// Which of these refuse a list by itself, each looked for without the others.
pub fn refused(list: &[u64]) -> [bool; 3] {
    let calls: Vec<&[u64]> = list.chunks(HANDED).collect();
    let whole: Vec<&&[u64]> = calls.iter().filter(|call| call.len() == HANDED).collect();
    [
        calls.len() > LIST_LIMIT,
        whole.len() < calls.len() || whole.iter().any(|call| call[0] > 2),
        whole.windows(2).any(|pair| pair[1][1] < pair[0][1]),
    ]
}

/// Stamps that are in both lists.
pub fn shared(lists: [&[u64]; 2]) -> bool {
    let [first, second] = lists.map(|list| list.chunks_exact(HANDED).map(|call| call[1]));
    let first: std::collections::BTreeSet<u64> = first.collect();
    second.into_iter().any(|stamp| first.contains(&stamp))
}

/// So many calls in order of stamp, from `start` on, of which half have the stamp of the one
/// before them; now and then all their other numbers are equal too.
pub(super) fn in_order(rng: &mut Rng, start: u64, length: usize) -> Vec<Vec<u64>> {
    let alike = rng.once_in(4);
    let mut stamp = start;
    rng.many(length, |rng| {
        stamp = stamp.saturating_add(rng.pick(&[0, 0, 0, 1, 1, 4]));
        let rest = match alike {
            true => [0; 3],
            false => [(); 3].map(|()| edge(rng)),
        };
        let kind = if alike { 0 } else { rng.below(3) };
        vec![kind, stamp, rest[0], rest[1], rest[2]]
    })
}

/// A call that 10 refuses, or one out of order; sometimes one that is neither.
pub(super) fn spoil(rng: &mut Rng, calls: &mut [Vec<u64>]) {
    let place = rng.place(calls.len());
    match rng.below(4) {
        0 => calls[place][0] = 3 + rng.below(2) * edge(rng) / 2,
        1 => calls[place][1] = edge(rng),
        // The last stamps there are wrap to the first.
        2 => calls[place][1] = u64::MAX,
        _ => calls[place][1] = calls[place][1].saturating_sub(1),
    }
}

/// A short list: mostly in order, else with calls amiss, cut, or too long.
fn list(rng: &mut Rng, start: u64) -> Vec<u64> {
    if rng.once_in(8000) {
        return vec![0; (LIST_LIMIT + rng.place(2)) * HANDED + rng.pick(&[0, 1, HANDED - 1])];
    }
    let length = rng.pick(&[0, 1, 1, 2, 3, 4, 5, 7, 8, 12]);
    let mut calls = in_order(rng, start, length);
    while length > 0 && rng.once_in(4) {
        spoil(rng, &mut calls);
    }
    let mut list = calls.concat();
    if rng.once_in(12) {
        list.extend(vec![0; 1 + rng.place(HANDED - 1)]);
    }
    list
}

/// Two short lists from about the same stamp on, and a buffer around what they take.
pub fn question(rng: &mut Rng) -> Question {
    let start = edge(rng).saturating_sub(2);
    let first = list(rng, start);
    let later = rng.pick(&[0, 0, 0, 1, 4]);
    let second = list(rng, start.saturating_add(later));
    let length = room(rng, first.len() + second.len());
    let joined = junk(rng, length);
    asked(first, second, joined)
}

/// A list of so many calls that this makes, and another beside it that may be amiss.
pub(super) fn beside(
    rng: &mut Rng,
    length: usize,
    make: impl Fn(&mut Rng, u64) -> Vec<u64>,
) -> [Vec<u64>; 2] {
    let start = edge(rng).saturating_sub(length as u64);
    let mut lists = [make(rng, start), list(rng, start)];
    if rng.once_in(4) {
        lists[1] = in_order(rng, start, length.min(LIST_LIMIT)).concat();
    }
    if rng.bit() == 1 {
        lists.reverse();
    }
    lists
}

/// A call told apart by its dst.
fn call(kind: u64, stamp: u64, dst: u64) -> [u64; HANDED] {
    [kind, stamp, 0, dst, 1]
}

/// What is always asked: two shifts with equal stamps, both ways round; one list empty, and
/// both; buffers just long enough and one number short; and for two refusals of either list
/// the one that comes first.
pub fn always() -> Vec<Question> {
    let day = [call(0, 4, 1), call(0, 8, 2), call(0, 8, 3)].concat();
    let evening = [call(0, 4, 4), call(0, 8, 5), call(0, 12, 6)].concat();
    let falls = [call(0, 8, 1), call(0, 7, 2)].concat();
    let late = [call(0, 8, 1), call(0, 8, 2), call(0, 7, 3)].concat();
    let bad = [call(1, 9, 1), call(3, 9, 2)].concat();
    let wraps = [call(2, u64::MAX, 1), call(2, 0, 2)].concat();
    let cut = [&day[..], &[0]].concat();
    let none = Vec::new;
    let pairs = [
        (&day, &evening, 32),
        (&evening, &day, 30),
        (&day, &evening, 29),
        (&day, &none(), 15),
        (&none(), &day, 16),
        (&none(), &none(), 0),
        (&day, &day, 30),
        (&falls, &bad, 0),
        (&bad, &falls, 0),
        (&falls, &late, 0),
        (&late, &falls, 0),
        (&evening, &late, 0),
        (&cut, &bad, 0),
        (&falls, &cut, 0),
        (&wraps, &day, 25),
    ];
    let question = |(first, second, room): (&Vec<u64>, &Vec<u64>, usize)| {
        asked(first.clone(), second.clone(), vec![9; room])
    };
    pairs.map(question).into()
}
