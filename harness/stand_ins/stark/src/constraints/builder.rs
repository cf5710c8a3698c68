//! Document 01, 'Forms to recast': the generic `ConstraintBuilder` is evaluation on
//! one row.

use math::field::element::FieldElement;
use math::field::extensions_goldilocks::Degree3GoldilocksExtensionField;
use math::field::goldilocks::GoldilocksField;
use std::ops::{Add, Mul, Sub};

pub trait ConstraintBuilder<F, E> {
    type Expr: Clone
        + Add<Output = Self::Expr>
        + Sub<Output = Self::Expr>
        + Mul<Output = Self::Expr>;

    fn one(&self) -> Self::Expr;
    fn const_base(&self, value: u64) -> Self::Expr;
    /// A signed constant or coefficient of an operand.
    fn const_signed(&self, value: i64) -> Self::Expr;
    fn main(&self, offset: usize, column: usize) -> Self::Expr;
    fn emit_base(&mut self, index: usize, residue: Self::Expr);
}

pub trait ConstraintSet<F, E> {
    fn eval<B: ConstraintBuilder<F, E>>(&self, b: &mut B);

    fn max_degree(&self) -> usize {
        2
    }
}

type Element = FieldElement<GoldilocksField>;

/// Evaluates constraints on one row of elements and keeps each residue under its
/// index.
pub struct RowEvaluator<'a> {
    row: &'a [u64],
    residues: Vec<Option<Element>>,
}

impl<'a> RowEvaluator<'a> {
    /// The numbers of `row` must be elements.
    pub fn new(row: &'a [u64], residues: usize) -> Self {
        Self {
            row,
            residues: vec![None; residues],
        }
    }

    /// Every residue. Panics if one was not emitted.
    pub fn residues(self) -> Vec<u64> {
        self.residues
            .into_iter()
            .map(|residue| residue.expect("a residue was not emitted").value())
            .collect()
    }
}

impl ConstraintBuilder<GoldilocksField, Degree3GoldilocksExtensionField> for RowEvaluator<'_> {
    type Expr = Element;

    fn one(&self) -> Element {
        Element::one()
    }

    fn const_base(&self, value: u64) -> Element {
        Element::from(value)
    }

    fn const_signed(&self, value: i64) -> Element {
        Element::from_signed(value)
    }

    fn main(&self, offset: usize, column: usize) -> Element {
        assert_eq!(offset, 0, "only the row itself can be read");
        Element::from(self.row[column])
    }

    fn emit_base(&mut self, index: usize, residue: Element) {
        let before = self.residues[index].replace(residue);
        assert!(before.is_none(), "residue {index} was emitted twice");
    }
}
