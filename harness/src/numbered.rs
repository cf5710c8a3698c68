//! Calls of the expansion over windows past the first edges, which a recorded question
//! cannot hold cell by cell: only the replay program asks so. Cell i has the byte i mod 251
//! and the stamp i, and of the window afterwards the changed cells are told.

use crate::oracle::records::{ACCESS, OPERATION};
use crate::oracle::{self, row_widths};
use crate::protocol::{Argument, Reply};

/// Cells of the windows, past 4,096 and past 8,192.
const CELLS: [usize; 2] = [4_160, 8_400];

/// The stamp of the calls, that no cell has.
const STAMP: u64 = 10_000;

/// The byte of a cell.
fn byte(cell: usize) -> u8 {
    (cell % 251) as u8
}

/// Kind, src, dst, count and gap: the request's two cases, behind the edge, a destination
/// before it, a Set and a Write over it, a Write whose index is before it, two edges, and no
/// byte at all.
const CALLS: [[u64; 5]; 10] = [
    [0, 4_088, 0, 8, 8],
    [0, 4_089, 0, 8, 8],
    [0, 4_096, 0, 8, 8],
    [0, 0, 4_089, 8, 8],
    [1, 4_081, 4_089, 24, 8],
    [2, 4_090, 4_090, 16, 8],
    [2, 16, 4_089, 8, 8],
    [0, 4_090, 8_180, 30, 0],
    [1, 4_090, 8_186, 24, 4_096],
    [0, 4_095, 4_095, 0, 8],
];

/// The parameters of each question and the text of its answer: each call with buffers one
/// number longer than its result, and the second with each buffer one short.
pub fn recorded() -> Vec<(Vec<Argument>, String)> {
    let longer = CALLS.map(|call| asked(call, [1, 1]));
    let short = [[-1, 0], [0, -1]].map(|more| asked(CALLS[1], more));
    longer.into_iter().chain(short).collect()
}

/// A call whose buffers have so many numbers more than its result.
fn asked(call: [u64; 5], more: [isize; 2]) -> (Vec<Argument>, String) {
    let [kind, src, dst, count, gap] = call;
    let rows = row_widths(kind, src, dst, count).len();
    let accesses = if kind == 2 { rows } else { 2 * rows };
    let results = [OPERATION * rows.max(1), ACCESS * accesses];
    let buffer = |i: usize| vec![7; results[i].wrapping_add_signed(more[i])];
    let [mut ops, mut accesses] = [0, 1].map(buffer);
    let reach = if kind == 2 { src } else { src.max(dst) } + count;
    let cells = CELLS[usize::from(reach > CELLS[0] as u64)];
    let mut bytes: Vec<u8> = (0..cells).map(byte).collect();
    let mut stamps: Vec<u64> = (0..cells as u64).collect();
    let numbers = [kind, STAMP, src, dst, count, gap, cells as u64];
    let mut arguments: Vec<Argument> = numbers.map(Argument::Number).into();
    arguments.extend([&ops, &accesses].map(|list| Argument::List(list.clone())));
    let mut counts = [0; 2];
    #[rustfmt::skip]
    let answer = oracle::collect_copy_ops(
        kind, STAMP, src, dst, count, gap,
        &mut bytes, &mut stamps, &mut ops, &mut accesses, &mut counts,
    );
    let lent = vec![ops, accesses, counts.into()];
    let mut text = Reply { answer, lent }.line();
    for (place, (now, stamp)) in bytes.into_iter().zip(stamps).enumerate() {
        if (now, stamp) != (byte(place), place as u64) {
            text += &format!(" {place} {now} {stamp}");
        }
    }
    (arguments, text)
}
