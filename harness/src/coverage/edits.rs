//! The page of must-fail edits: a row for each, its name and two more cells.

use super::page::{Row, rows};
use super::tree::Tree;
use std::collections::BTreeSet;

const CELLS: usize = 3;

pub fn faults(tree: &Tree, page: &str) -> Vec<String> {
    let mut faults = Vec::new();
    let mut told = BTreeSet::new();
    for row in rows(page) {
        if let Some(edit) = edit_of(&row) {
            faults.extend(fault(tree, &row, &edit, &mut told));
        }
    }
    let untold = tree.edits.difference(&told);
    faults.extend(untold.map(|edit| format!("EDITS: no row for {edit}")));
    faults
}

/// The first cell of a row, without backticks, if it is `crate/edit`.
fn edit_of(row: &Row) -> Option<String> {
    let first = row.cells.first()?.trim_matches('`');
    (first.contains('/') && !first.contains(' ')).then(|| first.to_string())
}

fn fault(tree: &Tree, row: &Row, edit: &str, told: &mut BTreeSet<String>) -> Option<String> {
    let line = row.line;
    let wrong = if !tree.edits.contains(edit) {
        "is no edit"
    } else if !told.insert(edit.to_string()) {
        "has a row already"
    } else if row.cells.len() != CELLS || row.cells.iter().any(String::is_empty) {
        "has not three cells with text"
    } else {
        return None;
    };
    Some(format!("EDITS line {line}: {edit} {wrong}"))
}
