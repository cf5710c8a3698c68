//! The proved code's exported functions, called on slices. A function that the archive
//! lacks can be named and not called: ask `has` first.

use crate::oracle::Answer;

/// As the archive has them: a slice is a pointer and a length, an array a pointer.
#[allow(dead_code)]
mod c {
    use super::Answer;

    unsafe extern "C" {
        pub fn field_add(a: u64, b: u64) -> Answer;
        pub fn field_sub(a: u64, b: u64) -> Answer;
        pub fn field_mul(a: u64, b: u64) -> Answer;
        pub fn copy_residue(gap: u64, row: *const u64, row_length: usize, number: u64) -> Answer;
        pub fn memw_residue(row: *const u64, row_length: usize, number: u64) -> Answer;
        pub fn memw_aligned_residue(row: *const u64, row_length: usize, number: u64) -> Answer;
        pub fn memw_register_residue(row: *const u64, row_length: usize, number: u64) -> Answer;
        pub fn add_pair(
            lhs: *const u64,
            lhs_length: usize,
            rhs: *const u64,
            rhs_length: usize,
            sum: *const u64,
            sum_length: usize,
            conditions: *const u64,
            conditions_length: usize,
            row: *const u64,
            row_length: usize,
            out: *mut u64,
        ) -> Answer;
        pub fn generate_copy_trace(
            ops: *const u64,
            ops_length: usize,
            table: *mut u64,
            table_length: usize,
        ) -> Answer;
        pub fn generate_memw_trace(
            records: *const u64,
            records_length: usize,
            table: *mut u64,
            table_length: usize,
        ) -> Answer;
        pub fn generate_memw_aligned_trace(
            records: *const u64,
            records_length: usize,
            table: *mut u64,
            table_length: usize,
        ) -> Answer;
        pub fn generate_memw_register_trace(
            records: *const u64,
            records_length: usize,
            table: *mut u64,
            table_length: usize,
        ) -> Answer;
        pub fn route_accesses(
            accesses: *const u64,
            accesses_length: usize,
            register: *mut u64,
            register_length: usize,
            aligned: *mut u64,
            aligned_length: usize,
            general: *mut u64,
            general_length: usize,
            counts: *mut u64,
        ) -> Answer;
        pub fn register_lookups(
            accesses: *const u64,
            accesses_length: usize,
            lookups: *mut u64,
            lookups_length: usize,
        ) -> Answer;
        pub fn join_calls(
            first: *const u64,
            first_length: usize,
            second: *const u64,
            second_length: usize,
            joined: *mut u64,
            joined_length: usize,
        ) -> Answer;
        pub fn push_reg_access(
            reg_addr: u64,
            val0: u32,
            val1: u32,
            old0: u32,
            old1: u32,
            timestamp: u64,
            old_timestamp: u64,
            is_read: u64,
            record: *mut u64,
        ) -> Answer;
        pub fn new_register_state(entry_point: u64, stack_top: u64, state: *mut u64) -> Answer;
        pub fn collect_copy_register_ops(
            kind: u64,
            timestamp: u64,
            src: u64,
            dst: u64,
            count: u64,
            state: *mut u64,
            records: *mut u64,
        ) -> Answer;
        pub fn collect_copy_ops(
            kind: u64,
            timestamp: u64,
            src: u64,
            dst: u64,
            count: u64,
            gap: u64,
            bytes: *mut u8,
            bytes_length: usize,
            stamps: *mut u64,
            stamps_length: usize,
            ops: *mut u64,
            ops_length: usize,
            accesses: *mut u64,
            accesses_length: usize,
            counts: *mut u64,
        ) -> Answer;
        pub fn generate_load(s: u64, calls: u64, out: *mut u64, out_length: usize) -> Answer;
        pub fn chain_check(gap: u64, rows: *const u64, rows_length: usize) -> Answer;
        pub fn row_check(gap: u64, row: *const u64, row_length: usize) -> Answer;
        pub fn read_back(
            gap: u64,
            rows: *const u64,
            rows_length: usize,
            ops: *mut u64,
            ops_length: usize,
            calls: *mut u64,
            calls_length: usize,
            counts: *mut u64,
        ) -> Answer;
        /// A product of elements and nothing else; for the benchmark, if it is there.
        pub fn element_mul(a: u64, b: u64) -> u64;
    }
}

/// Where the build script looked for the archive.
pub const ARCHIVE: &str = env!("MINJOLF_ARCHIVE");

/// Whether the archive has this function.
pub fn has(name: &str) -> bool {
    env!("MINJOLF_EXPORTED")
        .split(' ')
        .any(|known| known == name)
}

/// An error that says what to do if the archive has no function at all.
pub fn some() -> Result<(), String> {
    if env!("MINJOLF_EXPORTED").is_empty() {
        return Err(format!(
            "this harness was built without {ARCHIVE}: run `tools/build` at the \
             repository's root, then build the harness again"
        ));
    }
    Ok(())
}

/// Calls a function that the archive has.
macro_rules! call {
    ($present:ident, $name:ident($($argument:expr),* $(,)?)) => {{
        // Safety: a pointer is a slice's, with its length, or that of an array of the
        // length that the function names; the lent ones are borrowed for the call alone.
        #[cfg($present)]
        unsafe { c::$name($($argument),*) }
        #[cfg(not($present))]
        {
            let _ = ($($argument,)*);
            panic!("{} is not exported yet", stringify!($name))
        }
    }};
}

pub fn field_add(a: u64, b: u64) -> Answer {
    call!(exported_field_add, field_add(a, b))
}

pub fn field_sub(a: u64, b: u64) -> Answer {
    call!(exported_field_sub, field_sub(a, b))
}

pub fn field_mul(a: u64, b: u64) -> Answer {
    call!(exported_field_mul, field_mul(a, b))
}

pub fn copy_residue(gap: u64, row: &[u64], number: u64) -> Answer {
    call!(
        exported_copy_residue,
        copy_residue(gap, row.as_ptr(), row.len(), number)
    )
}

pub fn memw_residue(row: &[u64], number: u64) -> Answer {
    call!(
        exported_memw_residue,
        memw_residue(row.as_ptr(), row.len(), number)
    )
}

pub fn memw_aligned_residue(row: &[u64], number: u64) -> Answer {
    call!(
        exported_memw_aligned_residue,
        memw_aligned_residue(row.as_ptr(), row.len(), number)
    )
}

pub fn memw_register_residue(row: &[u64], number: u64) -> Answer {
    call!(
        exported_memw_register_residue,
        memw_register_residue(row.as_ptr(), row.len(), number)
    )
}

#[rustfmt::skip]
pub fn add_pair(
    lhs: &[u64], rhs: &[u64], sum: &[u64], conditions: &[u64], row: &[u64], out: &mut [u64; 3],
) -> Answer {
    call!(exported_add_pair, add_pair(
        lhs.as_ptr(), lhs.len(),
        rhs.as_ptr(), rhs.len(),
        sum.as_ptr(), sum.len(),
        conditions.as_ptr(), conditions.len(),
        row.as_ptr(), row.len(),
        out.as_mut_ptr(),
    ))
}

pub fn generate_copy_trace(ops: &[u64], table: &mut [u64]) -> Answer {
    call!(
        exported_generate_copy_trace,
        generate_copy_trace(ops.as_ptr(), ops.len(), table.as_mut_ptr(), table.len())
    )
}

#[rustfmt::skip]
pub fn generate_memw_trace(records: &[u64], table: &mut [u64]) -> Answer {
    call!(exported_generate_memw_trace, generate_memw_trace(
        records.as_ptr(), records.len(), table.as_mut_ptr(), table.len(),
    ))
}

#[rustfmt::skip]
pub fn generate_memw_aligned_trace(records: &[u64], table: &mut [u64]) -> Answer {
    call!(exported_generate_memw_aligned_trace, generate_memw_aligned_trace(
        records.as_ptr(), records.len(), table.as_mut_ptr(), table.len(),
    ))
}

#[rustfmt::skip]
pub fn generate_memw_register_trace(records: &[u64], table: &mut [u64]) -> Answer {
    call!(exported_generate_memw_register_trace, generate_memw_register_trace(
        records.as_ptr(), records.len(), table.as_mut_ptr(), table.len(),
    ))
}

#[rustfmt::skip]
pub fn route_accesses(
    accesses: &[u64],
    register: &mut [u64], aligned: &mut [u64], general: &mut [u64], counts: &mut [u64; 3],
) -> Answer {
    call!(exported_route_accesses, route_accesses(
        accesses.as_ptr(), accesses.len(),
        register.as_mut_ptr(), register.len(),
        aligned.as_mut_ptr(), aligned.len(),
        general.as_mut_ptr(), general.len(),
        counts.as_mut_ptr(),
    ))
}

#[rustfmt::skip]
pub fn register_lookups(accesses: &[u64], lookups: &mut [u64]) -> Answer {
    call!(exported_register_lookups, register_lookups(
        accesses.as_ptr(), accesses.len(), lookups.as_mut_ptr(), lookups.len(),
    ))
}

#[rustfmt::skip]
pub fn join_calls(first: &[u64], second: &[u64], joined: &mut [u64]) -> Answer {
    call!(exported_join_calls, join_calls(
        first.as_ptr(), first.len(), second.as_ptr(), second.len(), joined.as_mut_ptr(), joined.len(),
    ))
}

#[rustfmt::skip]
#[allow(clippy::too_many_arguments)]
pub fn push_reg_access(
    reg_addr: u64, val0: u32, val1: u32, old0: u32, old1: u32,
    timestamp: u64, old_timestamp: u64, is_read: u64, record: &mut [u64; 29],
) -> Answer {
    call!(exported_push_reg_access, push_reg_access(
        reg_addr, val0, val1, old0, old1,
        timestamp, old_timestamp, is_read, record.as_mut_ptr(),
    ))
}

pub fn new_register_state(entry_point: u64, stack_top: u64, state: &mut [u64; 68]) -> Answer {
    call!(
        exported_new_register_state,
        new_register_state(entry_point, stack_top, state.as_mut_ptr())
    )
}

#[rustfmt::skip]
pub fn collect_copy_register_ops(
    kind: u64, timestamp: u64, src: u64, dst: u64, count: u64,
    state: &mut [u64; 68], records: &mut [u64; 116],
) -> Answer {
    call!(exported_collect_copy_register_ops, collect_copy_register_ops(
        kind, timestamp, src, dst, count, state.as_mut_ptr(), records.as_mut_ptr(),
    ))
}

#[rustfmt::skip]
#[allow(clippy::too_many_arguments)]
pub fn collect_copy_ops(
    kind: u64, timestamp: u64, src: u64, dst: u64, count: u64, gap: u64,
    bytes: &mut [u8], stamps: &mut [u64], ops: &mut [u64], accesses: &mut [u64],
    counts: &mut [u64; 2],
) -> Answer {
    call!(exported_collect_copy_ops, collect_copy_ops(
        kind, timestamp, src, dst, count, gap,
        bytes.as_mut_ptr(), bytes.len(),
        stamps.as_mut_ptr(), stamps.len(),
        ops.as_mut_ptr(), ops.len(),
        accesses.as_mut_ptr(), accesses.len(),
        counts.as_mut_ptr(),
    ))
}

pub fn generate_load(s: u64, calls: u64, out: &mut [u64]) -> Answer {
    call!(
        exported_generate_load,
        generate_load(s, calls, out.as_mut_ptr(), out.len())
    )
}

pub fn chain_check(gap: u64, rows: &[u64]) -> Answer {
    call!(
        exported_chain_check,
        chain_check(gap, rows.as_ptr(), rows.len())
    )
}

pub fn row_check(gap: u64, row: &[u64]) -> Answer {
    call!(exported_row_check, row_check(gap, row.as_ptr(), row.len()))
}

#[rustfmt::skip]
pub fn read_back(
    gap: u64, rows: &[u64], ops: &mut [u64], calls: &mut [u64], counts: &mut [u64; 2],
) -> Answer {
    call!(exported_read_back, read_back(
        gap, rows.as_ptr(), rows.len(),
        ops.as_mut_ptr(), ops.len(),
        calls.as_mut_ptr(), calls.len(),
        counts.as_mut_ptr(),
    ))
}

/// The functions themselves, for loops in which the call is what is measured.
pub mod pointers {
    use super::Answer;

    pub type FieldMul = unsafe extern "C" fn(u64, u64) -> Answer;
    pub type ElementMul = unsafe extern "C" fn(u64, u64) -> u64;

    /// The function, if the archive has it.
    macro_rules! pointer {
        ($present:ident, $name:ident) => {{
            #[cfg($present)]
            {
                Some(super::c::$name)
            }
            #[cfg(not($present))]
            {
                None
            }
        }};
    }

    pub const FIELD_MUL: Option<FieldMul> = pointer!(exported_field_mul, field_mul);
    pub const ELEMENT_MUL: Option<ElementMul> = pointer!(exported_element_mul, element_mul);
}
