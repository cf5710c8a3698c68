//! `emit_add_pair` and `add_pair_carry_hi` on flat operands. Templates are not among
//! the published files: the stand-in that the original runs on computes them.

use super::{Answer, COPY_COLUMNS, Outcome, refuse_if, refuse_non_elements, write_front};
use original::constraints::templates::{AddLinearTerm, AddOperand};
use original::tables::residues;

/// The most terms of one sum.
const TERM_LIMIT: usize = 4;

/// A flat operand taken apart, not yet judged by 12.
enum Flat {
    Pair(u64),
    Sums([Vec<Term>; 2]),
}

enum Term {
    Constant(u64),
    Column { coefficient: u64, column: u64 },
}

/// out has the two residues and the high carry.
pub fn add_pair(
    lhs: &[u64],
    rhs: &[u64],
    sum: &[u64],
    conditions: &[u64],
    row: &[u64],
    out: &mut [u64; 3],
) -> Answer {
    let made = judge([lhs, rhs, sum], conditions, row).map(|operands| {
        let [lhs, rhs, sum] = &operands;
        let conditions: Vec<usize> = conditions.iter().map(|&column| column as usize).collect();
        write_front(out, &residues::add_pair([lhs, rhs, sum], &conditions, row));
        0
    });
    made.into()
}

/// 10 for the form, then 12, 13, 14.
fn judge(flat: [&[u64]; 3], conditions: &[u64], row: &[u64]) -> Outcome<[AddOperand; 3]> {
    let [Some(lhs), Some(rhs), Some(sum)] = flat.map(parse) else {
        return Err(super::Refusal::at(10, 0));
    };
    let operands = [lhs, rhs, sum];
    refuse_if(operands.iter().any(is_outside), 12)?;
    refuse_if(conditions.iter().any(|&column| !is_column(column)), 12)?;
    refuse_if(row.len() != COPY_COLUMNS, 13)?;
    refuse_non_elements(row)?;
    Ok(operands.map(|operand| operand_of(&operand)))
}

/// `0, column`, or `1`, then twice a number of terms and the terms; nothing after.
fn parse(flat: &[u64]) -> Option<Flat> {
    match flat {
        [0, column] => Some(Flat::Pair(*column)),
        [1, rest @ ..] => {
            let (lo, rest) = parse_sum(rest)?;
            let (hi, rest) = parse_sum(rest)?;
            rest.is_empty().then_some(Flat::Sums([lo, hi]))
        }
        _ => None,
    }
}

fn parse_sum(flat: &[u64]) -> Option<(Vec<Term>, &[u64])> {
    let (&length, mut rest) = flat.split_first()?;
    let mut terms = Vec::new();
    for _ in 0..length {
        let (term, after) = match rest {
            [0, constant, after @ ..] => (Term::Constant(*constant), after),
            [1, coefficient, column, after @ ..] => (
                Term::Column {
                    coefficient: *coefficient,
                    column: *column,
                },
                after,
            ),
            _ => return None,
        };
        terms.push(term);
        rest = after;
    }
    Some((terms, rest))
}

fn is_column(column: u64) -> bool {
    column < COPY_COLUMNS as u64
}

/// More than four terms in a sum, or a column outside the row; of a pair, both.
fn is_outside(operand: &Flat) -> bool {
    match operand {
        Flat::Pair(column) => *column >= COPY_COLUMNS as u64 - 1,
        Flat::Sums(sums) => sums.iter().any(|terms| {
            terms.len() > TERM_LIMIT
                || terms
                    .iter()
                    .any(|term| matches!(term, Term::Column { column, .. } if !is_column(*column)))
        }),
    }
}

fn operand_of(operand: &Flat) -> AddOperand {
    match operand {
        Flat::Pair(column) => AddOperand::dword(*column as usize),
        Flat::Sums([lo, hi]) => AddOperand::linear(&terms_of(lo), &terms_of(hi)),
    }
}

/// Signed numbers are in two's complement.
fn terms_of(terms: &[Term]) -> Vec<AddLinearTerm> {
    let term_of = |term: &Term| match *term {
        Term::Constant(value) => AddLinearTerm::Constant(value as i64),
        Term::Column {
            coefficient,
            column,
        } => AddLinearTerm::Column {
            coefficient: coefficient as i64,
            column: column as usize,
        },
    };
    terms.iter().map(term_of).collect()
}
