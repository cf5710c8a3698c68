//! The exported functions and their parameters. The build script reads this list too,
//! so it names nothing of the harness.

use Parameter::{Bytes, Lent, LentArray, LentBytes, Number, Slice, Word};

/// What a parameter of an exported function is.
#[derive(Debug, Clone, Copy, PartialEq, Eq)]
pub enum Parameter {
    Number,
    /// A number of 32 bits.
    Word,
    Slice,
    /// A slice of bytes.
    Bytes,
    /// A lent slice of any length.
    Lent,
    /// A lent slice of bytes.
    LentBytes,
    /// A lent array of this length.
    LentArray(usize),
}

impl Parameter {
    /// Whether the function can write it.
    pub fn is_lent(self) -> bool {
        matches!(self, Lent | LentBytes | LentArray(_))
    }
}

/// A function's name, its parameters in order, and the numbers with which it refuses.
pub type Function = (&'static str, &'static [Parameter], &'static [u64]);

/// Every exported function, with the refusals that docs/CALLING.md lists; and last the
/// program `callcheck`, whose input and output are bytes.
#[rustfmt::skip]
pub const FUNCTIONS: &[Function] = &[
    ("field_add", &[Number, Number], &[14]),
    ("field_sub", &[Number, Number], &[14]),
    ("field_mul", &[Number, Number], &[14]),
    ("copy_residue", &[Number, Slice, Number], &[7, 12, 13, 14]),
    ("memw_residue", &[Slice, Number], &[12, 13, 14]),
    ("memw_aligned_residue", &[Slice, Number], &[12, 13, 14]),
    ("memw_register_residue", &[Slice, Number], &[12, 13, 14]),
    ("add_pair", &[Slice, Slice, Slice, Slice, Slice, LentArray(3)], &[10, 12, 13, 14]),
    ("generate_copy_trace", &[Slice, Lent], &[8, 9, 10]),
    ("generate_memw_trace", &[Slice, Lent], &[8, 9, 10]),
    ("generate_memw_aligned_trace", &[Slice, Lent], &[8, 9, 10]),
    ("generate_memw_register_trace", &[Slice, Lent], &[8, 9, 10]),
    ("route_accesses", &[Slice, Lent, Lent, Lent, LentArray(3)], &[8, 9, 10, 11]),
    ("register_lookups", &[Slice, Lent], &[8, 9, 10, 11]),
    ("push_reg_access",
        &[Number, Word, Word, Word, Word, Number, Number, Number, LentArray(29)], &[10, 11]),
    ("new_register_state", &[Number, Number, LentArray(68)], &[]),
    ("collect_copy_register_ops",
        &[Number, Number, Number, Number, Number, LentArray(68), LentArray(116)],
        &[4, 5, 6, 10]),
    ("collect_copy_ops",
        &[Number, Number, Number, Number, Number, Number, LentBytes, Lent, Lent, Lent,
          LentArray(2)],
        &[1, 2, 3, 5, 7, 8, 9, 10]),
    ("generate_load", &[Number, Number, Lent], &[9, 19]),
    ("join_calls", &[Slice, Slice, Lent], &[8, 9, 10, 20]),
    ("chain_check", &[Number, Slice], &[7, 13, 14, 15, 16, 17, 18]),
    ("row_check", &[Number, Slice], &[7, 13, 14, 15, 16]),
    ("read_back", &[Number, Slice, Lent, Lent, LentArray(2)],
        &[7, 9, 13, 14, 15, 16, 17, 18]),
    ("callcheck", &[Bytes], &[1, 2, 3, 5, 7, 9, 10]),
];
