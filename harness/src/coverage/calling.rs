//! The refusals that docs/CALLING.md lists are those that the comparison waits for.

use super::page::{Row, rows};
use crate::functions::FUNCTIONS;
use std::collections::BTreeMap;

/// The page's table of functions is the one with this heading.
const HEADING: &str = "refuses with, in this order";

pub fn faults(page: &str) -> Vec<String> {
    let mut listed: BTreeMap<String, Vec<u64>> = BTreeMap::new();
    for row in rows(page) {
        if row.headings.last().map(String::as_str) == Some(HEADING) {
            let refusals = refusals(&row, &listed);
            for name in row.cells[0].split(',') {
                let name = name.trim().trim_matches('`');
                listed.insert(name.into(), refusals.clone());
            }
        }
    }
    let mut faults = Vec::new();
    for (name, _, refusals) in FUNCTIONS.iter().filter(|f| f.0 != "callcheck") {
        match listed.remove(*name) {
            Some(numbers) if numbers == *refusals => {}
            Some(numbers) => faults.push(format!(
                "CALLING: {name} refuses with {numbers:?}, in the comparison with {refusals:?}"
            )),
            None => faults.push(format!("CALLING: no row for {name}")),
        }
    }
    let others = listed.keys();
    faults.extend(others.map(|name| format!("CALLING: {name} is no exported function")));
    faults
}

/// The numbers of the last cell, lowest first: `14 to 17` is four of them, and a function's
/// name stands for its own.
fn refusals(row: &Row, listed: &BTreeMap<String, Vec<u64>>) -> Vec<u64> {
    let mut numbers: Vec<u64> = Vec::new();
    let mut range = false;
    for word in row.cells[row.cells.len() - 1].split([' ', ',', '`']) {
        match (word.parse(), listed.get(word)) {
            (Ok(number), _) if range => numbers.extend(numbers[numbers.len() - 1] + 1..=number),
            (Ok(number), _) => numbers.push(number),
            (_, Some(others)) => numbers.extend(others),
            _ => {}
        }
        range = word == "to" && !numbers.is_empty();
    }
    numbers.sort();
    numbers
}
