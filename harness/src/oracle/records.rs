//! Flat records: which numbers they admit, and the original's structs of them.

use super::{LIST_LIMIT, Outcome, Refusal, refuse_if};
use original::tables::copy::{CopyOperation, Functionality};
use original::tables::memw::MemwOperation;
use original::tables::memw_register::RegRow;

/// Numbers in an operation, an access and a register record.
pub const OPERATION: usize = 16;
pub const ACCESS: usize = 29;
pub const REGISTER: usize = 8;
/// Numbers in a call as it is handed in: kind, stamp, src, dst, count.
pub const HANDED: usize = 5;

/// 8, then the lowest record that is cut or that `fault` gives a number for.
pub(super) fn judge_list(
    list: &[u64],
    width: usize,
    fault: impl Fn(&[u64]) -> Option<u64>,
) -> Outcome<()> {
    refuse_if(list.len().div_ceil(width) > LIST_LIMIT, 8)?;
    for (place, record) in list.chunks(width).enumerate() {
        let number = if record.len() < width {
            Some(10)
        } else {
            fault(record)
        };
        if let Some(number) = number {
            return Err(Refusal::at(number, place));
        }
    }
    Ok(())
}

/// 10 for a whole record with a field outside its values.
pub(super) fn fault_unless(good: impl Fn(&[u64]) -> bool) -> impl Fn(&[u64]) -> Option<u64> {
    move |record| if good(record) { None } else { Some(10) }
}

fn is_byte(number: u64) -> bool {
    number < 1 << 8
}

fn is_word(number: u64) -> bool {
    number < 1 << 32
}

fn all(numbers: &[u64], test: fn(u64) -> bool) -> bool {
    numbers.iter().all(|&number| test(number))
}

/// Timestamp, src, dst, count, width, first, end, kind, eight value bytes.
pub fn is_operation(record: &[u64]) -> bool {
    is_byte(record[4])
        && all(&record[5..7], |flag| flag <= 1)
        && record[7] <= 2
        && all(&record[8..16], is_byte)
}

/// is_register, base address, 8 values, timestamp, width, is_read, 8 olds, 8 stamps.
pub fn is_access(record: &[u64]) -> bool {
    record[0] <= 1
        && all(&record[2..10], is_word)
        && [1, 2, 4, 8].contains(&record[11])
        && record[12] <= 1
        && all(&record[13..21], is_word)
}

/// Index, timestamp, two values, two olds, low old stamp, is_read.
pub fn is_register(record: &[u64]) -> bool {
    record[0] < 1 << 16 && all(&record[2..7], is_word) && record[7] <= 1
}

pub fn kind_of(number: u64) -> Option<Functionality> {
    match number {
        0 => Some(Functionality::Copy),
        1 => Some(Functionality::Set),
        2 => Some(Functionality::Write),
        _ => None,
    }
}

/// The struct of an admitted operation record.
pub fn operation_of(record: &[u64]) -> CopyOperation {
    CopyOperation {
        timestamp: record[0],
        src: record[1],
        dst: record[2],
        count: record[3],
        width: record[4] as u8,
        first: record[5] == 1,
        end: record[6] == 1,
        functionality: kind_of(record[7]).expect("judged by 10"),
        value: std::array::from_fn(|i| record[8 + i] as u8),
    }
}

pub fn operation_record(op: &CopyOperation) -> Vec<u64> {
    let head = [op.timestamp, op.src, op.dst, op.count, u64::from(op.width)];
    let kind = match op.functionality {
        Functionality::Copy => 0,
        Functionality::Set => 1,
        Functionality::Write => 2,
    };
    let flags = [u64::from(op.first), u64::from(op.end), kind];
    head.into_iter()
        .chain(flags)
        .chain(op.value.map(u64::from))
        .collect()
}

/// The struct of an admitted access record.
pub fn access_of(record: &[u64]) -> MemwOperation {
    let words = |at: usize| std::array::from_fn(|i| record[at + i] as u32);
    MemwOperation {
        is_register: record[0] == 1,
        base_address: record[1],
        value: words(2),
        timestamp: record[10],
        width: record[11] as u8,
        is_read: record[12] == 1,
        old: words(13),
        old_timestamp: std::array::from_fn(|i| record[21 + i]),
    }
}

pub fn access_record(op: &MemwOperation) -> Vec<u64> {
    let mut record = vec![u64::from(op.is_register), op.base_address];
    record.extend(op.value.map(u64::from));
    record.extend([op.timestamp, u64::from(op.width), u64::from(op.is_read)]);
    record.extend(op.old.map(u64::from));
    record.extend(op.old_timestamp);
    record
}

pub fn register_record(row: &RegRow) -> Vec<u64> {
    let mut record = vec![u64::from(row.index), row.timestamp];
    record.extend(row.value.map(u64::from));
    record.extend(row.old.map(u64::from));
    record.extend([u64::from(row.old_timestamp_lo), u64::from(row.is_read)]);
    record
}
