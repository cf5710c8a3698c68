//! Questions to the row check: one row with no neighbours, of every sort, and slices that
//! are not one row.

use super::numbers::{bad_gap, byte, gap};
use super::solve::{Plan, solved_once};
use super::{calls, lists, rows};
use crate::oracle::PRIME;
use crate::protocol::Question;
use crate::rng::Rng;
use crate::sound;

/// Lengths of slices that are not one row.
const LENGTHS: [usize; 12] = [0, 1, 2, 20, 40, 42, 43, 81, 82, 83, 123, 200];

/// Any row of a sound call: its first, last or one between, or an empty call's.
fn live(rng: &mut Rng, gap: u64) -> Vec<u64> {
    let rows = sound::rows_of(&calls::cut_call(rng, gap));
    rng.pick(rows.as_chunks::<41>().0).to_vec()
}

/// A row that passes.
fn passing(rng: &mut Rng, gap: u64) -> Vec<u64> {
    match rng.below(4) {
        0 => lists::dead(rng),
        _ => live(rng, gap),
    }
}

/// A row of a sound call solved in the field with one odd choice.
fn odd_live(rng: &mut Rng, gap: u64) -> Vec<u64> {
    let row = live(rng, gap);
    let (rest, piece) = sound::read_row(&row).expect("a sound row");
    let plan = Plan {
        rest,
        piece,
        first: row[32] == 1,
        end: row[33] == 1,
        live: true,
    };
    solved_once(rng, gap, &plan)
}

/// A row as a call that is not sound would have it.
fn wild(rng: &mut Rng, gap: u64) -> Vec<u64> {
    let rows = lists::wild_call(rng, gap);
    rng.pick(&rows)
}

/// Sets one number to a limit of some column or one beside it, or to the greatest.
fn spoil(rng: &mut Rng, row: &mut [u64]) {
    let column = rng.place(row.len());
    row[column] = match rng.below(13) {
        0 => u64::MAX,
        _ => rng.pick(&[1 << 8, 1 << 16, 1 << 32, PRIME, PRIME]) - 1 + rng.below(3),
    };
}

/// A row, sound or not.
fn row(rng: &mut Rng, gap: u64) -> Vec<u64> {
    let mut row = passing(rng, gap);
    match rng.below(16) {
        0..=2 => {}
        3 => row = rows::copy_row(rng, gap),
        4..=7 => row = odd_live(rng, gap),
        8 => row = lists::odd_dead(rng, gap),
        9 => row = wild(rng, gap),
        10 => lists::rebuild(rng, gap, &mut row),
        11 => rows::change(rng, &mut row),
        12 => row[32 + rng.place(9)] ^= 1,
        13 => row[2 + rng.place(8)] = byte(rng),
        _ => {
            spoil(rng, &mut row);
            while rng.bit() == 1 {
                spoil(rng, &mut row);
            }
        }
    }
    row
}

/// So many numbers, of this row and of rows that pass.
fn of_length(rng: &mut Rng, gap: u64, mut row: Vec<u64>, length: usize) -> Vec<u64> {
    while row.len() < length {
        row.extend(passing(rng, gap));
    }
    row.truncate(length);
    row
}

/// 7 and 13 at times, whatever the row.
pub fn question(rng: &mut Rng) -> Question {
    let gap = gap(rng);
    let mut row = row(rng, gap);
    if rng.once_in(16) {
        let length = rng.pick(&LENGTHS);
        row = of_length(rng, gap, row, length);
    }
    let gap = match rng.below(32) {
        0 => bad_gap(rng),
        1 => gap ^ 1,
        _ => gap,
    };
    Question::new("row_check", vec![gap.into(), row.into()])
}
