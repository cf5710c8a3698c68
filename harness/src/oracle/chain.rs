//! Chain check, row check and read-back, by document 01's words. The residues are the
//! original's.

use super::records::OPERATION;
use super::{
    Answer, COPY_COLUMNS, GAP_LIMIT, Outcome, PRIME, Refusal, refuse_if, refuse_non_elements,
    refuse_short, write_front,
};
use original::tables::copy::cols;
use original::tables::residues::copy_residues;

/// Kind, stamp, src, dst, count.
const CALL: usize = 5;

/// Whether the list of rows is one of whole calls; the value is the number of rows.
pub fn chain_check(gap: u64, rows: &[u64]) -> Answer {
    check(gap, rows).into()
}

/// Whether one row passes alone, with no neighbours.
pub fn row_check(gap: u64, row: &[u64]) -> Answer {
    let judge = || {
        refuse_if(gap >= GAP_LIMIT, 7)?;
        refuse_if(row.len() != COPY_COLUMNS, 13)?;
        check_row(gap, row)?;
        Ok(0)
    };
    Answer::from(judge())
}

/// One operation record for each live row, five numbers for each call.
pub fn read_back(
    gap: u64,
    rows: &[u64],
    ops: &mut [u64],
    calls: &mut [u64],
    counts: &mut [u64; 2],
) -> Answer {
    let mut judge = || {
        check(gap, rows)?;
        let live = || rows.chunks(COPY_COLUMNS).filter(|row| row[cols::MU] == 1);
        let read: Vec<u64> = live().flat_map(operation_read).collect();
        let first = live().filter(|row| row[cols::FIRST] == 1);
        let read_calls: Vec<u64> = first.flat_map(call_read).collect();
        refuse_short(ops.len(), read.len())?;
        refuse_short(calls.len(), read_calls.len())?;
        write_front(ops, &read);
        write_front(calls, &read_calls);
        *counts = [
            (read.len() / OPERATION) as u64,
            (read_calls.len() / CALL) as u64,
        ];
        Ok(counts[0])
    };
    Answer::from(judge())
}

fn check(gap: u64, rows: &[u64]) -> Outcome<u64> {
    refuse_if(gap >= GAP_LIMIT, 7)?;
    refuse_if(!rows.len().is_multiple_of(COPY_COLUMNS), 13)?;
    let mut before: Option<&[u64]> = None;
    for (place, row) in rows.chunks(COPY_COLUMNS).enumerate() {
        check_row(gap, row).map_err(|refusal| Refusal { place, ..refusal })?;
        if !is_linked(before, row) {
            return Err(Refusal::at(17, place));
        }
        before = Some(row);
    }
    let count = rows.len() / COPY_COLUMNS;
    match before {
        Some(row) if row[cols::MU] == 1 && row[cols::END] == 0 => Err(Refusal::at(18, count)),
        _ => Ok(count as u64),
    }
}

/// 14, 15, 16 with the places that a row alone has: in 14 the number's, else 0. In a list
/// the place is the row's.
fn check_row(gap: u64, row: &[u64]) -> Outcome<()> {
    refuse_non_elements(row)?;
    let is_out = |column: usize| row[column] >= limit(column);
    refuse_if((0..COPY_COLUMNS).any(is_out), 15)?;
    let residues = copy_residues(gap, row);
    match residues.iter().position(|&residue| residue != 0) {
        Some(index) => Err(Refusal {
            index,
            ..Refusal::at(16, 0)
        }),
        None => Ok(()),
    }
}

/// What a number of this column is below: VALUE bytes, WL words, HL halves, and
/// elsewhere any element.
fn limit(column: usize) -> u64 {
    match column {
        2..=9 => 1 << 8,
        0 | 1 | 10 | 11 | 16 | 17 | 22 | 23 => 1 << 32,
        12..=15 | 18..=21 | 24..=31 => 1 << 16,
        _ => PRIME,
    }
}

/// 17's rule, for a row that passed 14 to 16 and the row before it.
fn is_linked(before: Option<&[u64]>, row: &[u64]) -> bool {
    let opens = before.is_none_or(|b| b[cols::MU] == 1 && b[cols::END] == 1);
    if row[cols::MU] == 0 {
        return opens || before.is_some_and(|b| b[cols::MU] == 0);
    }
    if opens {
        return row[cols::FIRST] == 1;
    }
    before.is_some_and(|b| b[cols::MU] == 1) && row[cols::FIRST] == 0 && follows(before, row)
}

/// Same timestamp and kind; SRC, DST and COUNT go on from the row before.
fn follows(before: Option<&[u64]>, row: &[u64]) -> bool {
    let Some(before) = before else { return false };
    let same = [
        cols::TIMESTAMP_0,
        cols::TIMESTAMP_1,
        cols::IS_SET,
        cols::IS_WRITE,
    ];
    same.iter().all(|&column| row[column] == before[column])
        && from_words(row, cols::SRC_0) == from_halves(before, cols::SRC_INCR_0)
        && from_words(row, cols::DST_0) == from_halves(before, cols::DST_INCR_0)
        && from_words(row, cols::COUNT_0) == from_halves(before, cols::COUNT_DECR_0)
}

fn from_words(row: &[u64], column: usize) -> u64 {
    row[column] | row[column + 1] << 32
}

fn from_halves(row: &[u64], column: usize) -> u64 {
    (0..4).fold(0, |number, half| number | row[column + half] << (16 * half))
}

fn kind_read(row: &[u64]) -> u64 {
    row[cols::IS_SET] + 2 * row[cols::IS_WRITE]
}

fn operation_read(row: &[u64]) -> Vec<u64> {
    let mut record = vec![
        from_words(row, cols::TIMESTAMP_0),
        from_words(row, cols::SRC_0),
        from_words(row, cols::DST_0),
        from_words(row, cols::COUNT_0),
        if row[cols::SINGLE] == 1 { 1 } else { 8 },
        row[cols::FIRST],
        row[cols::END],
        kind_read(row),
    ];
    record.extend(&row[cols::VALUE_0..cols::VALUE_0 + 8]);
    record
}

fn call_read(row: &[u64]) -> [u64; CALL] {
    let number = |column| from_words(row, column);
    [
        kind_read(row),
        number(cols::TIMESTAMP_0),
        number(cols::SRC_0),
        number(cols::DST_0),
        number(cols::COUNT_0),
    ]
}
