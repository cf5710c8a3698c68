//! Residues by number. Those of the copy and the general table are the original's;
//! the aligned and the register table's follow document 01.

use super::field::Element;
use super::{Answer, COPY_COLUMNS, GAP_LIMIT, Outcome, refuse_if, refuse_non_elements};
use original::tables::memw;
use original::tables::residues::{self, COPY_RESIDUES, MEMW_RESIDUES};

/// 12, 13, 14 for a residue of a row.
fn refuse_row(row: &[u64], columns: usize, number: u64, residues: usize) -> Outcome<usize> {
    refuse_if(number >= residues as u64, 12)?;
    refuse_if(row.len() != columns, 13)?;
    refuse_non_elements(row)?;
    Ok(number as usize)
}

/// Residue `number` of a copy row.
pub fn copy_residue(gap: u64, row: &[u64], number: u64) -> Answer {
    let judge = || {
        refuse_if(gap >= GAP_LIMIT, 7)?;
        let index = refuse_row(row, COPY_COLUMNS, number, COPY_RESIDUES)?;
        Ok(residues::copy_residues(gap, row)[index])
    };
    Answer::from(judge())
}

/// Residue `number` of a row of the general access table.
pub fn memw_residue(row: &[u64], number: u64) -> Answer {
    refuse_row(row, memw::cols::NUM_COLUMNS, number, MEMW_RESIDUES)
        .map(|index| residues::memw_residues(row)[index])
        .into()
}

/// Residue `number` of a row of the aligned access table.
pub fn memw_aligned_residue(row: &[u64], number: u64) -> Answer {
    refuse_row(row, 29, number, 8)
        .map(|index| aligned_residues(row)[index].value())
        .into()
}

/// Residue `number` of a row of the register access table.
pub fn memw_register_residue(row: &[u64], number: u64) -> Answer {
    refuse_row(row, 10, number, 3)
        .map(|index| register_residues(row)[index].value())
        .into()
}

fn is_bit(x: Element) -> Element {
    x * (Element::one() - x)
}

/// 'As general's without CARRY': its residues 0 to 3 and 11 to 14.
fn aligned_residues(row: &[u64]) -> [Element; 8] {
    let [write2, write4, write8] = [14, 15, 16].map(|column| Element::from(row[column]));
    let [read, write] = [27, 28].map(|column| Element::from(row[column]));
    let sum = read + write;
    let widths = write2 + write4 + write8;
    [
        is_bit(sum),
        widths * (Element::one() - sum),
        is_bit(read),
        is_bit(write),
        is_bit(write2),
        is_bit(write4),
        is_bit(write8),
        is_bit(widths),
    ]
}

/// Two bits, then s(1 - s), s their sum.
fn register_residues(row: &[u64]) -> [Element; 3] {
    let [read, write] = [8, 9].map(|column| Element::from(row[column]));
    [is_bit(read), is_bit(write), is_bit(read + write)]
}
