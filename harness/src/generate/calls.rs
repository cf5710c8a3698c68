//! Calls, sound ones with random cuts and others.

use super::numbers::{byte, edge};
use crate::rng::Rng;
use crate::sound::{Call, CutCall, Piece, is_sound};

/// A count that a list of a few rows can carry.
fn count(rng: &mut Rng) -> u64 {
    match rng.below(5) {
        0 => 0,
        1 => rng.pick(&[1, 7, 8, 9, 15, 16, 17]),
        _ => rng.below(41),
    }
}

/// Any call; a Set mostly keeps the gap (modulo 2^64).
pub fn call(rng: &mut Rng, gap: u64) -> Call {
    let [kind, count] = [rng.below(3), count(rng)];
    call_of(rng, gap, kind, count)
}

/// Any call of this kind and count.
fn call_of(rng: &mut Rng, gap: u64, kind: u64, count: u64) -> Call {
    // The last places of memory, where a call just stays below 2^64 or does not.
    let top = 0u64.wrapping_sub(count).wrapping_sub(rng.below(20));
    let place = |rng: &mut Rng| if rng.once_in(4) { top } else { edge(rng) };
    let src = place(rng);
    let dst = match kind {
        1 if !rng.once_in(30) => src.wrapping_add(gap),
        _ => place(rng),
    };
    Call {
        kind,
        stamp: edge(rng),
        src,
        dst,
        count,
    }
}

fn piece(rng: &mut Rng, width: u64) -> Piece {
    let zero_tail = width == 1;
    let mut value = [0; 8];
    for (place, cell) in value.iter_mut().enumerate() {
        *cell = if place > 0 && zero_tail { 0 } else { byte(rng) };
    }
    Piece { width, value }
}

/// A random cut of a call into widths of 1 and 8.
pub fn cut(rng: &mut Rng, call: Call) -> CutCall {
    let mut pieces = Vec::new();
    let mut left = call.count;
    while left != 0 {
        let width = if left >= 8 && !rng.once_in(3) { 8 } else { 1 };
        pieces.push(piece(rng, width));
        left -= width;
    }
    if pieces.is_empty() {
        let width = rng.pick(&[1, 8]);
        pieces.push(piece(rng, width));
    }
    CutCall { call, pieces }
}

/// A sound call with a random cut.
pub fn cut_call(rng: &mut Rng, gap: u64) -> CutCall {
    loop {
        let call = call(rng, gap);
        if is_sound(gap, &call) {
            return cut(rng, call);
        }
    }
}

/// A sound call of so many rows, at least one, cut at random; one row may be an empty
/// call's.
pub fn call_of_rows(rng: &mut Rng, gap: u64, rows: usize) -> CutCall {
    let pieces = rng.many(rows, |rng| {
        let width = rng.pick(&[1, 8, 8]);
        piece(rng, width)
    });
    let empty = rows == 1 && rng.once_in(3);
    let count = match empty {
        true => 0,
        false => pieces.iter().map(|piece| piece.width).sum(),
    };
    loop {
        let kind = rng.below(3);
        let call = call_of(rng, gap, kind, count);
        if is_sound(gap, &call) {
            return CutCall { call, pieces };
        }
    }
}

/// The free parts of a dead row that passes: src and dst may wrap.
pub fn dead_parts(rng: &mut Rng) -> (Call, Piece) {
    let width = rng.pick(&[1, 8]);
    let piece = piece(rng, width);
    let count = edge(rng).max(piece.width);
    let call = Call {
        kind: 0,
        stamp: edge(rng),
        src: edge(rng),
        dst: edge(rng),
        count,
    };
    (call, piece)
}
