//! Field operations.

use super::{Answer, Outcome, refuse_non_elements};
use math::field::element::FieldElement;
use math::field::goldilocks::GoldilocksField;

pub type Element = FieldElement<GoldilocksField>;

fn operate(a: u64, b: u64, operation: fn(Element, Element) -> Element) -> Outcome<u64> {
    refuse_non_elements(&[a, b])?;
    Ok(operation(a.into(), b.into()).value())
}

/// a + b modulo p.
pub fn field_add(a: u64, b: u64) -> Answer {
    operate(a, b, |a, b| a + b).into()
}

/// a - b modulo p.
pub fn field_sub(a: u64, b: u64) -> Answer {
    operate(a, b, |a, b| a - b).into()
}

/// a * b modulo p.
pub fn field_mul(a: u64, b: u64) -> Answer {
    operate(a, b, |a, b| a * b).into()
}
