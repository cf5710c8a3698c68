//! Single rows: made ones, rows of arbitrary elements, solved and changed ones.

use super::numbers::{bad_gap, edge, element, gap, non_element};
use super::{calls, solve};
use crate::oracle::PRIME;
use crate::protocol::{Argument, Question};
use crate::rng::Rng;
use crate::sound;

/// Changes one number of a row of elements into another element.
pub fn change(rng: &mut Rng, row: &mut [u64]) {
    let column = rng.place(row.len());
    let now = u128::from(row[column]);
    let step = match rng.bit() {
        0 => 1,
        _ => 1 << rng.below(33),
    };
    let moved = |step: u128| ((now + step) % u128::from(PRIME)) as u64;
    row[column] = match rng.below(6) {
        0 => element(rng),
        1 => rng.below(3),
        2 | 3 => moved(step),
        _ => moved(u128::from(PRIME) - step),
    };
}

/// A row that a sound call could have, or a dead one.
fn made(rng: &mut Rng, gap: u64) -> Vec<u64> {
    let cut = calls::cut_call(rng, gap);
    if rng.once_in(6) {
        return sound::dead_row(&cut.call, &cut.pieces[0]);
    }
    let rows = sound::rows_of(&cut);
    let place = rng.place(rows.len() / 41);
    rows[41 * place..41 * place + 41].to_vec()
}

/// A row of elements of the copy table, of every sort.
pub fn copy_row(rng: &mut Rng, gap: u64) -> Vec<u64> {
    let mut row = match rng.below(5) {
        0 => rng.many(41, element),
        1 | 2 => made(rng, gap),
        _ => solve::solved(rng, gap),
    };
    while rng.once_in(3) {
        change(rng, &mut row);
    }
    row
}

/// A row of elements of an access table: its flags mostly bits.
fn access_row(rng: &mut Rng, columns: usize) -> Vec<u64> {
    rng.many(columns, |rng| match rng.below(6) {
        0 => element(rng),
        1 => rng.pick(&[2, PRIME - 1]),
        _ => rng.bit(),
    })
}

/// Makes a row meet 14 or 13, at times both.
pub fn damage(rng: &mut Rng, row: &mut Vec<u64>) {
    while !row.is_empty() && rng.once_in(10) {
        let place = rng.place(row.len());
        row[place] = non_element(rng);
    }
    match rng.below(40) {
        0 => row.truncate(rng.place(row.len() + 1)),
        1 => row.push(edge(rng)),
        _ => {}
    }
}

/// A residue's number, past the last at times.
fn residue_number(rng: &mut Rng, residues: u64) -> u64 {
    match rng.below(20) {
        0 => residues + rng.below(2),
        1 => edge(rng),
        _ => rng.below(residues),
    }
}

/// A question for one residue of a row of so many numbers.
pub fn long_question(rng: &mut Rng, name: &str, length: usize) -> Question {
    let (gap, row) = (gap(rng), access_row(rng, length));
    question_on(rng, name, gap, row)
}

/// A question for one residue of one row.
pub fn residue_question(rng: &mut Rng, name: &str) -> Question {
    let gap = gap(rng);
    let mut row = match name {
        "copy_residue" => copy_row(rng, gap),
        "memw_residue" => access_row(rng, 49),
        "memw_aligned_residue" => access_row(rng, 29),
        _ => access_row(rng, 10),
    };
    damage(rng, &mut row);
    question_on(rng, name, gap, row)
}

fn question_on(rng: &mut Rng, name: &str, gap: u64, row: Vec<u64>) -> Question {
    let residues = match name {
        "copy_residue" => 40,
        "memw_residue" => 15,
        "memw_aligned_residue" => 8,
        _ => 3,
    };
    let number = residue_number(rng, residues);
    let mut arguments: Vec<Argument> = vec![row.into(), number.into()];
    if name == "copy_residue" {
        let gap = if rng.once_in(20) { bad_gap(rng) } else { gap };
        arguments.insert(0, gap.into());
    }
    Question::new(name, arguments)
}
