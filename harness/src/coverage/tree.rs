//! What crates/ holds: files, names that they define, must-fail edits.

use std::collections::{BTreeMap, BTreeSet};
use std::path::{Path, PathBuf};
use std::{fs, io};

pub struct Tree {
    pub root: PathBuf,
    pub crates: BTreeSet<String>,
    /// The names that each file defines, by its path from crates/, without `.antt`.
    pub files: BTreeMap<String, BTreeSet<String>>,
    /// As `crate/edit`.
    pub edits: BTreeSet<String>,
}

impl Tree {
    pub fn read(root: &Path) -> io::Result<Self> {
        let mut tree = Self {
            root: root.to_path_buf(),
            crates: BTreeSet::new(),
            files: BTreeMap::new(),
            edits: BTreeSet::new(),
        };
        for entry in fs::read_dir(root.join("crates"))? {
            let name = entry?.file_name().to_string_lossy().into_owned();
            tree.add(&name)?;
            tree.crates.insert(name);
        }
        Ok(tree)
    }

    /// A file, or a folder and all that it holds.
    fn add(&mut self, path: &str) -> io::Result<()> {
        let place = self.root.join("crates").join(path);
        if place.is_dir() {
            for entry in fs::read_dir(place)? {
                let name = entry?.file_name().to_string_lossy().into_owned();
                self.add(&format!("{path}/{name}"))?;
            }
        } else if let Some(edit) = path.strip_suffix(".edit") {
            self.edits.insert(edit.replace("/must-fail/", "/"));
        } else if let Some(file) = path.strip_suffix(".antt") {
            let names = defined(&fs::read_to_string(place)?);
            self.files.insert(file.into(), names);
        } else if path.ends_with(".rt") {
            let names = declared(&fs::read_to_string(place)?);
            self.files.insert(path.into(), names);
        }
        Ok(())
    }

    /// Whether a file or a folder of this name is there.
    pub fn has(&self, path: &str) -> bool {
        self.files.contains_key(path) || self.root.join("crates").join(path).is_dir()
    }

    /// Whether a file below the path, or any file for an empty one, defines the name.
    pub fn defines(&self, path: &str, name: &str) -> bool {
        let below =
            |file: &str| path.is_empty() || file == path || file.starts_with(&format!("{path}/"));
        let mut files = self.files.iter();
        files.any(|(file, names)| below(file) && names.contains(name))
    }
}

/// The names that a file of definitions and proofs defines: what stands before a colon,
/// or behind `record` or `data`, at the beginning of a line, fields and cases among them.
fn defined(text: &str) -> BTreeSet<String> {
    let mut names = BTreeSet::new();
    for line in text.lines().filter(|line| !line.starts_with("--")) {
        let mut words = line.split_whitespace();
        let plain = |word: &&str| !["pub", "abbrev", "unfoldable", "opaque"].contains(word);
        let Some(word) = words.find(plain) else {
            continue;
        };
        let next = words.next().unwrap_or("");
        match word {
            "record" | "data" => drop(names.insert(next.to_string())),
            // A name that is a word of the language too stands in guillemets.
            _ if next == ":" => drop(names.insert(word.trim_matches(['«', '»']).to_string())),
            _ => {}
        }
    }
    names
}

/// The names that a source file declares: functions, types, constants, modules, and the
/// fields and cases of types.
fn declared(text: &str) -> BTreeSet<String> {
    let mut names = BTreeSet::new();
    let mut in_type = false;
    for line in text.lines() {
        let words: Vec<&str> = line
            .split(|c: char| !c.is_ascii_alphanumeric() && c != '_')
            .filter(|word| !["pub", "ghost", "extern", "C", ""].contains(word))
            .collect();
        match words[..] {
            ["fn" | "const" | "mod" | "type", name, ..] => drop(names.insert(name.to_string())),
            ["struct" | "enum", name, ..] => {
                names.insert(name.to_string());
                in_type = line.ends_with('{');
            }
            [name, ..] if in_type => drop(names.insert(name.to_string())),
            _ => {}
        }
        in_type &= !line.starts_with('}');
    }
    names
}
