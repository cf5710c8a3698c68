//! Stand-in for the constraint templates, by document 01, 'Field and operands'.

use stark::constraints::builder::ConstraintBuilder;
use std::cell::Cell;

use crate::tables::types::{GoldilocksExtension, GoldilocksField};
use executor::vm::instruction::execution::DMA_MEMSET_GAP;

/// 2^-32 modulo p.
pub const INV_SHIFT_32: u64 = 18_446_744_065_119_617_026;

thread_local! {
    static GAP: Cell<Option<u64>> = const { Cell::new(None) };
}

/// Runs `work` with `gap` standing for `DMA_MEMSET_GAP`.
pub fn with_gap<R>(gap: u64, work: impl FnOnce() -> R) -> R {
    let before = GAP.replace(Some(gap));
    let result = work();
    GAP.set(before);
    result
}

/// One term of a sum: a signed constant, or a signed coefficient times a column.
#[derive(Debug, Clone, Copy)]
pub enum AddLinearTerm {
    Constant(i64),
    Column { coefficient: i64, column: usize },
}

/// A sum of at most four terms.
#[derive(Debug, Clone, Copy)]
pub struct AddTerms {
    terms: [AddLinearTerm; 4],
    length: usize,
}

impl AddTerms {
    /// Panics on more than four terms: refusal 12 comes before.
    fn new(terms: &[AddLinearTerm]) -> Self {
        let mut all = [AddLinearTerm::Constant(0); 4];
        all[..terms.len()].copy_from_slice(terms);
        Self {
            terms: all,
            length: terms.len(),
        }
    }
}

/// Two neighbouring word columns, or a low and a high sum.
#[derive(Debug, Clone, Copy)]
pub enum AddOperand {
    Dword(usize),
    Linear { lo: AddTerms, hi: AddTerms },
}

impl AddOperand {
    pub fn dword(column: usize) -> Self {
        Self::Dword(column)
    }

    pub fn linear(lo: &[AddLinearTerm], hi: &[AddLinearTerm]) -> Self {
        Self::Linear {
            lo: AddTerms::new(lo),
            hi: AddTerms::new(hi),
        }
    }

    /// Four neighbouring half columns, lowest first.
    pub fn from_dword_hl(column: usize) -> Self {
        let half = |coefficient, place| AddLinearTerm::Column {
            coefficient,
            column: column + place,
        };
        Self::linear(
            &[half(1, 0), half(1 << 16, 1)],
            &[half(1, 2), half(1 << 16, 3)],
        )
    }

    /// A constant in the low sum. `DMA_MEMSET_GAP` is a mark (see its definition) and
    /// stands for the gap of `with_gap`; a gap is below 2^32, so it is a low word.
    pub fn constant(value: i64) -> Self {
        let value = if value == DMA_MEMSET_GAP as i64 {
            GAP.get()
                .expect("constraints with a gap are evaluated under `with_gap`") as i64
        } else {
            value
        };
        Self::linear(&[AddLinearTerm::Constant(value)], &[])
    }
}

fn sum<B: ConstraintBuilder<GoldilocksField, GoldilocksExtension>>(
    b: &B,
    sum: &AddTerms,
) -> B::Expr {
    sum.terms[..sum.length]
        .iter()
        .fold(b.const_base(0), |total, term| {
            total
                + match *term {
                    AddLinearTerm::Constant(value) => b.const_signed(value),
                    AddLinearTerm::Column {
                        coefficient,
                        column,
                    } => b.const_signed(coefficient) * b.main(0, column),
                }
        })
}

/// The low and the high value of an operand.
fn limbs<B: ConstraintBuilder<GoldilocksField, GoldilocksExtension>>(
    b: &B,
    operand: &AddOperand,
) -> [B::Expr; 2] {
    match operand {
        AddOperand::Dword(column) => [b.main(0, *column), b.main(0, column + 1)],
        AddOperand::Linear { lo, hi } => [sum(b, lo), sum(b, hi)],
    }
}

/// c0 = (lo + lo - sum lo) / 2^32 and c1 = (hi + hi + c0 - sum hi) / 2^32.
fn carries<B: ConstraintBuilder<GoldilocksField, GoldilocksExtension>>(
    b: &B,
    lhs: &AddOperand,
    rhs: &AddOperand,
    sum: &AddOperand,
) -> [B::Expr; 2] {
    let [lhs_lo, lhs_hi] = limbs(b, lhs);
    let [rhs_lo, rhs_hi] = limbs(b, rhs);
    let [sum_lo, sum_hi] = limbs(b, sum);
    let c0 = (lhs_lo + rhs_lo - sum_lo) * b.const_base(INV_SHIFT_32);
    let c1 = (lhs_hi + rhs_hi + c0.clone() - sum_hi) * b.const_base(INV_SHIFT_32);
    [c0, c1]
}

/// c1 of the sum.
pub fn add_pair_carry_hi<B: ConstraintBuilder<GoldilocksField, GoldilocksExtension>>(
    b: &B,
    lhs: &AddOperand,
    rhs: &AddOperand,
    sum: &AddOperand,
) -> B::Expr {
    let [_, c1] = carries(b, lhs, rhs, sum);
    c1
}

/// Residues `index` and `index + 1`: c0(1 - c0) and c1(1 - c1), times the sum of the
/// condition columns if there are any.
pub fn emit_add_pair<B: ConstraintBuilder<GoldilocksField, GoldilocksExtension>>(
    b: &mut B,
    index: usize,
    conditions: &[usize],
    lhs: &AddOperand,
    rhs: &AddOperand,
    sum: &AddOperand,
) {
    let gate = conditions
        .iter()
        .map(|&column| b.main(0, column))
        .reduce(|total, condition| total + condition)
        .unwrap_or(b.one());
    for (place, carry) in carries(b, lhs, rhs, sum).into_iter().enumerate() {
        let residue = gate.clone() * carry.clone() * (b.one() - carry);
        b.emit_base(index + place, residue);
    }
}

/// x(1 - x) for a column, times a condition column if there is one.
pub fn emit_is_bit<B: ConstraintBuilder<GoldilocksField, GoldilocksExtension>>(
    b: &mut B,
    index: usize,
    column: usize,
    condition: Option<usize>,
) {
    let bit = b.main(0, column);
    let residue = bit.clone() * (b.one() - bit);
    match condition {
        Some(condition) => b.emit_base(index, b.main(0, condition) * residue),
        None => b.emit_base(index, residue),
    }
}
