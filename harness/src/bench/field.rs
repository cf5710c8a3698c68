//! Products in the field. Each side is called through a pointer that the compiler
//! cannot see through, checks its two numbers and returns an `Answer`.

use super::goldilocks::mul;
use super::{Report, Times, race};
use crate::exported::pointers::{ELEMENT_MUL, ElementMul, FIELD_MUL, FieldMul};
use crate::oracle::{Answer, PRIME};
use crate::rng::Rng;
use std::hint::black_box;

/// Products in a turn.
const PRODUCTS: usize = 1024;

fn judged(a: u64, b: u64, product: impl FnOnce(u64, u64) -> u64) -> Answer {
    let refusal = |place| Answer {
        number: 14,
        place,
        value: 0,
    };
    if a >= PRIME {
        return refusal(0);
    }
    if b >= PRIME {
        return refusal(1);
    }
    Answer {
        number: 0,
        place: 0,
        value: product(a, b),
    }
}

fn product_by_division(a: u64, b: u64) -> u64 {
    (u128::from(a) * u128::from(b) % u128::from(PRIME)) as u64
}

#[inline(never)]
extern "C" fn by_division(a: u64, b: u64) -> Answer {
    judged(a, b, product_by_division)
}

#[inline(never)]
extern "C" fn by_reduction(a: u64, b: u64) -> Answer {
    judged(a, b, mul)
}

#[inline(never)]
extern "C" fn raw_by_division(a: u64, b: u64) -> u64 {
    product_by_division(a, b)
}

#[inline(never)]
extern "C" fn raw_by_reduction(a: u64, b: u64) -> u64 {
    mul(a, b)
}

const DIVISION: &str = "Rust, `u128 % p`";
const REDUCTION: &str = "Rust, 64-bit Goldilocks reduction";

pub fn run(report: &mut Report) {
    if report.wants("field_mul")
        && let Some(ours) = FIELD_MUL
    {
        let sides: [FieldMul; 3] = [ours, by_division, by_reduction];
        // Safety: the functions take any two numbers.
        measure(
            report,
            "field_mul",
            sides.map(|f| move |a, b| unsafe { f(a, b) }.value),
        );
    }
    if let Some(ours) = ELEMENT_MUL {
        let sides: [ElementMul; 3] = [ours, raw_by_division, raw_by_reduction];
        // Safety: the functions take any two numbers; these are elements.
        measure(
            report,
            "element_mul",
            sides.map(|f| move |a, b| unsafe { f(a, b) }),
        );
    }
}

/// A chain of products, each a factor of the next, and products of two arrays.
fn measure(report: &mut Report, name: &str, sides: [impl Fn(u64, u64) -> u64 + Copy; 3]) {
    let mut rng = Rng::new(1);
    let [left, right] = [(); 2].map(|()| rng.many(PRODUCTS, |rng| 1 + rng.below(PRIME - 1)));

    let mut ends = [0, 1, 2];
    let [a, b, c] = &mut ends;
    let what = format!("{name}, dependent chain");
    add_rows(
        report,
        &what,
        [
            &mut || *a = black_box(chain(black_box(sides[0]), &right)),
            &mut || *b = black_box(chain(black_box(sides[1]), &right)),
            &mut || *c = black_box(chain(black_box(sides[2]), &right)),
        ],
    );
    assert!(is_one(&ends), "{what}: results differ");

    let mut outs = [0, 1, 2].map(|junk| vec![junk; PRODUCTS]);
    let [a, b, c] = &mut outs;
    let what = format!("{name}, array of 1,024");
    add_rows(
        report,
        &what,
        [
            &mut || array(black_box(sides[0]), &left, &right, a),
            &mut || array(black_box(sides[1]), &left, &right, b),
            &mut || array(black_box(sides[2]), &left, &right, c),
        ],
    );
    assert!(is_one(&outs), "{what}: results differ");
}

/// Whether the three sides have one result.
fn is_one<T: PartialEq>(results: &[T; 3]) -> bool {
    results.iter().all(|result| *result == results[0])
}

fn add_rows(report: &mut Report, what: &str, mut turns: [super::Turn; 3]) {
    let times = race(&mut turns)
        .into_iter()
        .map(|time| time / PRODUCTS as f64);
    let times: Vec<f64> = times.collect();
    for (against, rust) in [(DIVISION, times[1]), (REDUCTION, times[2])] {
        let ours = times[0];
        report.call(what, against, Times { ours, rust });
    }
}

#[inline(never)]
fn chain(product: impl Fn(u64, u64) -> u64, factors: &[u64]) -> u64 {
    factors
        .iter()
        .fold(PRIME - 2, |x, &factor| product(x, factor))
}

#[inline(never)]
fn array(product: impl Fn(u64, u64) -> u64, left: &[u64], right: &[u64], out: &mut [u64]) {
    for ((out, &a), &b) in out.iter_mut().zip(left).zip(right) {
        *out = product(a, b);
    }
}
