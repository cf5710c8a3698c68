//! Questions to the load: any s, few calls or too many, buffers of all lengths.

use super::numbers::{edge, junk, room};
use crate::oracle::LIST_LIMIT;
use crate::oracle::records::HANDED;
use crate::protocol::{Argument, Question};
use crate::rng::Rng;

/// Most of these questions ask for no more calls than this.
const FEW: u64 = 40;

/// Numbers of calls that 19 refuses, of which some wrap to few when they are taken times
/// five or cut to 32 or 16 bits.
const TOO_MANY: [u64; 8] = [
    LIST_LIMIT as u64 + 1,
    LIST_LIMIT as u64 + 2,
    2 * LIST_LIMIT as u64,
    1 << 32,
    (1 << 32) + 1,
    1 << 63,
    u64::MAX / HANDED as u64 + 1,
    u64::MAX,
];

/// So many calls of the load of s, into this list.
pub fn asked(s: u64, calls: u64, out: impl Into<Argument>) -> Question {
    Question::new("generate_load", vec![s.into(), calls.into(), out.into()])
}

pub fn question(rng: &mut Rng) -> Question {
    let s = edge(rng);
    let calls = match rng.below(16) {
        0 => rng.pick(&TOO_MANY),
        _ => rng.below(FEW + 1),
    };
    // Of too many calls the buffer holds a few.
    let length = room(rng, HANDED * calls.min(FEW) as usize);
    asked(s, calls, junk(rng, length))
}

/// What is always asked: the first calls of s 0, no call at all, and at the limit 19 before
/// 9, with a buffer that is empty.
pub fn always() -> Vec<Question> {
    let limit = LIST_LIMIT as u64;
    let empty = [0, limit, limit + 1, u64::MAX].map(|calls| asked(7, calls, Vec::new()));
    let mut questions = vec![asked(0, 6, vec![7; 6 * HANDED + 1])];
    questions.extend(empty);
    questions
}
