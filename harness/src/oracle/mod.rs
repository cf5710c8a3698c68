//! One function for each exported function, on numbers and lent slices. Refusals are
//! document 01's, judged in its order before the original is asked; a refusal writes
//! nothing. What the original computes is taken from it; the rest is written from
//! document 01's words (README.md says which is which).

mod access;
mod callcheck;
mod chain;
mod expansion;
mod field;
mod join;
mod load;
mod operands;
pub mod records;
mod registers;
mod residues;
mod tables;

pub use access::{
    difference_by_words, halfword_pair, push_reg_access, register_lookups, route_accesses,
    route_by_words,
};
pub use callcheck::callcheck;
pub use chain::{chain_check, read_back, row_check};
pub use expansion::{collect_copy_ops, row_widths};
pub use field::{field_add, field_mul, field_sub};
pub use join::join_calls;
pub use load::{generate_load, load};
pub use math::field::goldilocks::PRIME;
pub use operands::add_pair;
pub use registers::{collect_copy_register_ops, flat as flat_registers, new_register_state};
pub use residues::{copy_residue, memw_aligned_residue, memw_register_residue, memw_residue};
pub use tables::{
    carries_by_words, generate_copy_trace, generate_memw_aligned_trace,
    generate_memw_register_trace, generate_memw_trace,
};

/// Numbers in a row of the copy table.
pub const COPY_COLUMNS: usize = 41;
/// A gap is below this.
pub const GAP_LIMIT: u64 = 1 << 32;
/// The most records of an input list, and the most cells of a window.
pub const LIST_LIMIT: usize = 65_536;

/// `number` is 0 or a refusal's; `place` is the refusal's place; `value` is the
/// result, or the residue's index for 16. Laid out as the exported functions return it.
#[repr(C)]
#[derive(Debug, Clone, Copy, PartialEq, Eq)]
pub struct Answer {
    pub number: u64,
    pub place: u64,
    pub value: u64,
}

/// Inside this module: a result, or the refusal.
type Outcome<T> = Result<T, Refusal>;

/// A refusal's number, place, and the residue's index for 16.
#[derive(Debug, Clone, Copy)]
struct Refusal {
    number: u64,
    place: usize,
    index: usize,
}

impl Refusal {
    fn at(number: u64, place: usize) -> Self {
        Self {
            number,
            place,
            index: 0,
        }
    }
}

/// Refuses with this number, place 0, if the test holds.
fn refuse_if(test: bool, number: u64) -> Outcome<()> {
    if test {
        Err(Refusal::at(number, 0))
    } else {
        Ok(())
    }
}

impl From<Outcome<u64>> for Answer {
    fn from(outcome: Outcome<u64>) -> Self {
        match outcome {
            Ok(value) => Self {
                number: 0,
                place: 0,
                value,
            },
            Err(Refusal {
                number,
                place,
                index,
            }) => Self {
                number,
                place: place as u64,
                value: index as u64,
            },
        }
    }
}

/// 14 for a single row or a field operation: the lowest number not below p.
fn refuse_non_elements(numbers: &[u64]) -> Outcome<()> {
    match numbers.iter().position(|&number| number >= PRIME) {
        Some(place) => Err(Refusal::at(14, place)),
        None => Ok(()),
    }
}

/// 9 if the buffer is shorter than the result.
fn refuse_short(buffer: usize, result: usize) -> Outcome<()> {
    refuse_if(buffer < result, 9)
}

/// Writes the result into the front of a buffer; numbers past it keep their values.
fn write_front<T: Copy>(buffer: &mut [T], result: &[T]) {
    buffer[..result.len()].copy_from_slice(result);
}
