//! docs/COVERAGE.md, docs/EDITS.md and docs/CALLING.md against the tree: what the pages
//! cite exists, and every must-fail edit is cited (README.md says what they keep to).

mod calling;
mod edits;
mod page;
mod references;
mod tree;

use std::fs;
use std::path::{Path, PathBuf};
use tree::Tree;

/// The pages, seen from the repository's root.
const COVERAGE: &str = "docs/COVERAGE.md";
const EDITS: &str = "docs/EDITS.md";
const CALLING: &str = "docs/CALLING.md";

/// Checks the repository's pages, or others of the same kind in the first two's place.
pub fn run(pages: &[&str]) -> Result<(), String> {
    let root = Path::new(env!("CARGO_MANIFEST_DIR")).join("..");
    let [coverage, edits] = match pages {
        [] => [COVERAGE, EDITS].map(|page| root.join(page)),
        [coverage, edits] => [coverage, edits].map(PathBuf::from),
        _ => return Err("two pages, or none".into()),
    };
    let tree = Tree::read(&root).map_err(|error| format!("crates: {error}"))?;
    let mut faults = references::faults(&tree, &read(&coverage)?);
    match read(&edits) {
        Ok(page) => faults.extend(edits::faults(&tree, &page)),
        Err(missing) => faults.push(missing),
    }
    faults.extend(calling::faults(&read(&root.join(CALLING))?));
    if faults.is_empty() {
        println!("{} edits, each cited and told", tree.edits.len());
        return Ok(());
    }
    Err(format!("{}\n{} faults", faults.join("\n"), faults.len()))
}

fn read(page: &Path) -> Result<String, String> {
    fs::read_to_string(page).map_err(|error| format!("{}: {error}", page.display()))
}
