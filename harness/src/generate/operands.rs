//! Flat operands and questions on them.

use super::numbers::{edge, gap, junk};
use super::rows;
use crate::protocol::{Argument, Question};
use crate::rng::Rng;

/// A column, at times outside the row.
fn column(rng: &mut Rng) -> u64 {
    match rng.below(60) {
        0 => edge(rng),
        1 => rng.pick(&[40, 41, 42]),
        _ => rng.below(40),
    }
}

/// A signed number in two's complement.
fn signed(rng: &mut Rng) -> u64 {
    match rng.below(4) {
        0 => rng.below(20).wrapping_sub(10),
        1 => 1 << rng.below(64),
        2 => (1u64 << rng.below(64)).wrapping_neg(),
        _ => edge(rng),
    }
}

fn term(rng: &mut Rng) -> Vec<u64> {
    match rng.bit() {
        0 => vec![0, signed(rng)],
        _ => vec![1, signed(rng), column(rng)],
    }
}

fn sum(rng: &mut Rng) -> Vec<u64> {
    let length = if rng.once_in(30) {
        5 + rng.place(2)
    } else {
        rng.place(5)
    };
    let terms = rng.many(length, term);
    [vec![length as u64], terms.concat()].concat()
}

/// An operand of the right form, except at times.
fn operand(rng: &mut Rng) -> Vec<u64> {
    let mut flat = match rng.below(3) {
        0 => vec![0, column(rng)],
        _ => [vec![1], sum(rng), sum(rng)].concat(),
    };
    match rng.below(80) {
        0 => flat.truncate(rng.place(flat.len())),
        1 => flat.push(edge(rng)),
        2 => flat[0] = edge(rng),
        3 => {
            let place = rng.place(flat.len());
            flat[place] = edge(rng);
        }
        _ => {}
    }
    flat
}

/// Operands as copy.rs has them: two words, a step, four halves.
fn copy_operands(rng: &mut Rng) -> [Vec<u64>; 3] {
    let halves = |at: u64| {
        vec![
            1,
            2,
            1,
            1,
            at,
            1,
            1 << 16,
            at + 1,
            2,
            1,
            1,
            at + 2,
            1,
            1 << 16,
            at + 3,
        ]
    };
    let step = vec![1, 2, 0, 8, 1, 7u64.wrapping_neg(), 34, 0];
    match rng.below(4) {
        0 => [vec![0, 10], step, halves(12)],
        1 => [vec![0, 16], step, halves(18)],
        2 => [halves(24), step, vec![0, 22]],
        _ => [vec![0, 16], vec![0, 22], halves(28)],
    }
}

/// A question with so many conditions, and now and then an operand of so many terms.
pub fn long_question(rng: &mut Rng, length: usize) -> Question {
    let mut operands = copy_operands(rng);
    if rng.once_in(3) {
        let terms = rng.many(length, term).concat();
        operands[rng.place(3)] = [vec![1, length as u64], terms, vec![0]].concat();
    }
    let conditions = rng.many(length, |rng| rng.below(41));
    with_conditions(rng, operands, conditions)
}

pub fn question(rng: &mut Rng) -> Question {
    let operands = match rng.below(3) {
        0 => copy_operands(rng),
        _ => [operand(rng), operand(rng), operand(rng)],
    };
    let conditions = match rng.below(3) {
        0 => vec![],
        1 => vec![rng.pick(&[32, 35, 36])],
        _ => {
            let length = rng.place(4);
            rng.many(length, column)
        }
    };
    with_conditions(rng, operands, conditions)
}

fn with_conditions(rng: &mut Rng, operands: [Vec<u64>; 3], conditions: Vec<u64>) -> Question {
    let gap = gap(rng);
    let mut row = rows::copy_row(rng, gap);
    rows::damage(rng, &mut row);
    let mut arguments: Vec<Argument> = operands.map(Argument::List).into();
    arguments.extend([conditions, row, junk(rng, 3)].map(Argument::List));
    Question::new("add_pair", arguments)
}
