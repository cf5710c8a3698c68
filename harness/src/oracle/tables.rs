//! The four table makers: 8, 10, 9. The copy and the general table are the
//! original's; the aligned and the register table follow document 01.

use super::records::{
    ACCESS, OPERATION, REGISTER, access_of, fault_unless, is_access, is_operation, is_register,
    judge_list, operation_of,
};
use super::{Answer, COPY_COLUMNS, Outcome, refuse_short, write_front};
use original::tables::copy::CopyOperation;
use original::tables::memw::MemwOperation;
use original::tables::residues::numbers;
use original::tables::{copy, memw};

/// One of the tables: how wide its records and rows are, and what is a record.
struct Shape {
    record: usize,
    columns: usize,
    is_record: fn(&[u64]) -> bool,
}

/// Least power of two that is at least the record count, and at least 4.
fn row_count(records: usize) -> usize {
    let mut rows = 4;
    while rows < records {
        rows *= 2;
    }
    rows
}

/// Judges the list and the table, and writes the numbers that `make` gives.
fn make_table(
    shape: Shape,
    list: &[u64],
    table: &mut [u64],
    make: impl FnOnce() -> Vec<u64>,
) -> Outcome<u64> {
    judge_list(list, shape.record, fault_unless(shape.is_record))?;
    let rows = row_count(list.len() / shape.record);
    refuse_short(table.len(), rows * shape.columns)?;
    let made = make();
    assert_eq!(made.len(), rows * shape.columns);
    write_front(table, &made);
    Ok(rows as u64)
}

/// Rows of `row_of` one after the other, then rows of zeros.
fn zero_padded(list: &[u64], shape: &Shape, row_of: fn(&[u64]) -> Vec<u64>) -> Vec<u64> {
    let records = list.chunks(shape.record);
    let length = row_count(records.len()) * shape.columns;
    let mut made: Vec<u64> = records.flat_map(row_of).collect();
    made.resize(length, 0);
    made
}

/// The copy table of operation records.
pub fn generate_copy_trace(ops: &[u64], table: &mut [u64]) -> Answer {
    let shape = Shape {
        record: OPERATION,
        columns: COPY_COLUMNS,
        is_record: is_operation,
    };
    let make = || {
        let ops: Vec<CopyOperation> = ops.chunks(OPERATION).map(operation_of).collect();
        numbers(&copy::generate_copy_trace(&ops))
    };
    make_table(shape, ops, table, make).into()
}

/// The general table of access records.
pub fn generate_memw_trace(records: &[u64], table: &mut [u64]) -> Answer {
    let columns = memw::cols::NUM_COLUMNS;
    let shape = Shape {
        record: ACCESS,
        columns,
        is_record: is_access,
    };
    let make = || {
        let ops: Vec<MemwOperation> = records.chunks(ACCESS).map(access_of).collect();
        numbers(&memw::generate_memw_trace(&ops))
    };
    make_table(shape, records, table, make).into()
}

/// Document 01's CARRY of an address: 'CARRY[i] is 1 exactly if low address + i + 1 is at
/// least 2^32'.
pub fn carries_by_words(address: u64) -> [u64; 7] {
    let low = address % (1 << 32);
    std::array::from_fn(|i| u64::from(low + i as u64 + 1 >= 1 << 32))
}

const ALIGNED: Shape = Shape {
    record: ACCESS,
    columns: 29,
    is_record: is_access,
};
const REGISTERS: Shape = Shape {
    record: REGISTER,
    columns: 10,
    is_record: is_register,
};

/// The aligned table of access records.
pub fn generate_memw_aligned_trace(records: &[u64], table: &mut [u64]) -> Answer {
    make_table(ALIGNED, records, table, || {
        zero_padded(records, &ALIGNED, aligned_row)
    })
    .into()
}

/// The register table of register records.
pub fn generate_memw_register_trace(records: &[u64], table: &mut [u64]) -> Answer {
    make_table(REGISTERS, records, table, || {
        zero_padded(records, &REGISTERS, register_row)
    })
    .into()
}

fn words(number: u64) -> [u64; 2] {
    [number % (1 << 32), number >> 32]
}

fn aligned_row(record: &[u64]) -> Vec<u64> {
    let (address, width, is_read) = (record[1], record[11], record[12]);
    let mut row = vec![
        record[0],
        address % (1 << 16),
        address >> 16 & 0xFFFF,
        address >> 32,
    ];
    row.extend(&record[2..10]);
    row.extend(words(record[10]));
    row.extend([2, 4, 8].map(|flag| u64::from(width == flag)));
    row.extend(&record[13..21]);
    row.extend(words(record[21]));
    row.extend([is_read, 1 - is_read]);
    row
}

fn register_row(record: &[u64]) -> Vec<u64> {
    let is_read = record[7];
    let mut row = vec![record[0]];
    row.extend(words(record[1]));
    row.extend(&record[2..7]);
    row.extend([is_read, 1 - is_read]);
    row
}
