//! The load. The published files have none: this one is written from document 02's words,
//! over whole numbers.

use super::records::HANDED;
use super::{Answer, LIST_LIMIT, refuse_if, refuse_short, write_front};

const MULTIPLIER: u128 = 6_364_136_223_846_793_005;
const INCREMENT: u128 = 1_442_695_040_888_963_407;

/// The first calls of the load of s; the value is their number.
pub fn generate_load(s: u64, calls: u64, out: &mut [u64]) -> Answer {
    let mut judge = || {
        refuse_if(calls > LIST_LIMIT as u64, 19)?;
        refuse_short(out.len(), HANDED * calls as usize)?;
        write_front(out, &load(s, calls).concat());
        Ok(calls)
    };
    Answer::from(judge())
}

/// Kind, stamp, src, dst and count of each call.
pub fn load(s: u64, calls: u64) -> Vec<[u64; HANDED]> {
    let mut state = u128::from(s);
    let mut draw = |limit: u64| {
        state = (state * MULTIPLIER + INCREMENT) % (1 << 64);
        (state >> 32) as u64 % limit
    };
    let mut index = 0;
    let mut call = |k: u64| {
        let [kind, count, src, drawn] = [3, 33, 900, 900].map(&mut draw);
        let dst = match kind {
            1 => src + 8,
            2 => index,
            _ => drawn,
        };
        if kind == 2 {
            index += count;
        }
        [kind, 4 * k, src, dst, count]
    };
    (0..calls).map(&mut call).collect()
}
