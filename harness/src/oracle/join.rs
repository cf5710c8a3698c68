//! The join. The published files have none: this one is written from document 02's words, and
//! sorts where the proved code merges.

use super::records::HANDED;
use super::{Answer, LIST_LIMIT, Outcome, Refusal, refuse_if, refuse_short, write_front};

/// A call's kind and stamp, of the numbers in which it is handed in.
const KIND: usize = 0;
const STAMP: usize = 1;

/// Two lists of calls made into one; the value is the number of calls.
pub fn join_calls(first: &[u64], second: &[u64], joined: &mut [u64]) -> Answer {
    let lists = [first, second];
    let mut judge = || {
        let each = |test: fn(&[u64]) -> Outcome<()>| lists.into_iter().try_for_each(test);
        each(few)?;
        each(good)?;
        each(in_order)?;
        refuse_short(joined.len(), first.len() + second.len())?;
        let mut calls: Vec<&[u64]> = lists.iter().flat_map(|list| list.chunks(HANDED)).collect();
        // Calls with equal stamps stay as they are: each list's own in their order, and those
        // of the first list ahead.
        calls.sort_by_key(|call| call[STAMP]);
        write_front(joined, &calls.concat());
        Ok(calls.len() as u64)
    };
    Answer::from(judge())
}

/// 8, a cut call counted.
fn few(list: &[u64]) -> Outcome<()> {
    refuse_if(list.len().div_ceil(HANDED) > LIST_LIMIT, 8)
}

/// 10: the lowest call that is cut or of no kind.
fn good(list: &[u64]) -> Outcome<()> {
    let bad = |call: &[u64]| call.len() < HANDED || call[KIND] > 2;
    refuse_at(10, list.chunks(HANDED).position(bad))
}

/// 20: the lowest call that is stamped below the one before it. No call is cut.
fn in_order(list: &[u64]) -> Outcome<()> {
    let stamps: Vec<u64> = list.chunks(HANDED).map(|call| call[STAMP]).collect();
    let earlier = stamps.windows(2).position(|pair| pair[1] < pair[0]);
    refuse_at(20, earlier.map(|place| place + 1))
}

fn refuse_at(number: u64, place: Option<usize>) -> Outcome<()> {
    match place {
        Some(place) => Err(Refusal::at(number, place)),
        None => Ok(()),
    }
}
