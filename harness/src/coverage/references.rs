//! What the cells of docs/COVERAGE.md cite. The first cell of a row quotes a sentence and
//! is left alone; a row's other cells cite:
//!
//! - files as `crate/specs/File`, `crate/proofs/File`, `crate/src/file.rt`, and folders;
//! - behind a comma another file of the same folder as `File`;
//! - names of a file in parentheses behind it, `crate/specs/File (name, name)`; behind
//!   the file's last part alone if an earlier row has its path, behind a crate, or behind
//!   a name of the file;
//! - edits as `crate/edit`, and behind a comma an edit of the same crate as `edit`;
//! - other names of the code, in backticks, or with `_` or a capital inside.

use super::page::{Row, is_name, rows};
use super::tree::Tree;
use std::collections::{BTreeMap, BTreeSet};

/// Words of the language that stand in backticks and are no names.
const KEYWORDS: [&str; 8] = [
    "match", "let", "else", "fn", "enum", "extern", "requires", "ensures",
];

pub fn faults(tree: &Tree, page: &str) -> Vec<String> {
    let mut reader = Reader {
        tree,
        line: 0,
        short: BTreeMap::new(),
        cited: BTreeSet::new(),
        faults: Vec::new(),
    };
    for row in rows(page) {
        reader.row(&row);
    }
    let Reader {
        cited, mut faults, ..
    } = reader;
    let uncited = tree.edits.difference(&cited);
    faults.extend(uncited.map(|edit| format!("COVERAGE: {edit} is not cited")));
    faults
}

struct Reader<'a> {
    tree: &'a Tree,
    line: usize,
    /// The path of each file cited so far, by its last part.
    short: BTreeMap<String, String>,
    /// Edits.
    cited: BTreeSet<String>,
    faults: Vec<String>,
}

/// What the last word of a cell was.
#[derive(Clone)]
enum Last {
    Nothing,
    /// A file or a folder.
    Path(String),
    /// A word that stands for a file or a crate.
    Short(String),
    /// An edit of this crate.
    Edit(String),
}

impl Reader<'_> {
    fn row(&mut self, row: &Row) {
        self.line = row.line;
        for (place, cell) in row.cells.iter().enumerate().skip(1) {
            let heading = row.headings.get(place).map_or("", String::as_str);
            self.cell(cell, heading.starts_with("edit"));
        }
    }

    fn fault(&mut self, what: String) {
        self.faults
            .push(format!("COVERAGE line {}: {what}", self.line));
    }

    /// In a column of edits a name outside parentheses is an edit.
    fn cell(&mut self, cell: &str, edits: bool) {
        let tokens = tokens(cell);
        let mut last = Last::Nothing;
        let mut place = 0;
        while place < tokens.len() {
            let token = &tokens[place];
            let (before, after) = (&tokens[..place], &tokens[place + 1..]);
            if token.text == "(" {
                let inner = inside(after);
                match &last {
                    Last::Path(path) => self.names(path, &after[..inner]),
                    Last::Short(path) if is_list(&after[..inner]) => {
                        self.names(path, &after[..inner]);
                    }
                    _ => self.prose(&after[..inner]),
                }
                place += inner + 1;
                last = keep_edit(last);
            } else if token.is_word() {
                let listed = before.last().is_some_and(|token| token.text == ",");
                last = self.word(token, &last, edits, listed);
            } else if token.text != "," {
                last = keep_edit(last);
            }
            place += 1;
        }
    }

    /// A word outside parentheses.
    fn word(&mut self, token: &Token, last: &Last, edits: bool, listed: bool) -> Last {
        let word = token.text.as_str();
        if word.contains('/') {
            return self.path(word);
        }
        match last {
            Last::Edit(name) if is_name(word) && (edits || listed) => {
                self.edit(name, word);
                return last.clone();
            }
            _ if edits && is_name(word) => {
                self.fault(format!("{word}: an edit of which crate?"));
                return Last::Nothing;
            }
            Last::Path(path) if listed => {
                if let Some(other) = self.beside(path, word) {
                    return self.path(&other);
                }
            }
            _ => {}
        }
        let known = self.short.get(word).or(self.tree.crates.get(word));
        if let Some(path) = known {
            return Last::Short(path.clone());
        }
        self.name(token);
        self.file_of(word).map_or(Last::Nothing, Last::Short)
    }

    /// The file of this name in the same folder.
    fn beside(&self, path: &str, word: &str) -> Option<String> {
        let (folder, _) = path.rsplit_once('/')?;
        let other = format!("{folder}/{word}");
        self.tree.files.contains_key(&other).then_some(other)
    }

    /// The file that defines a name with a capital, which may have fields.
    fn file_of(&self, word: &str) -> Option<String> {
        let mut files = self.tree.files.iter();
        let capital = word.starts_with(|c: char| c.is_ascii_uppercase());
        let found = files.find(|(file, names)| file.contains("/specs/") && names.contains(word));
        found.filter(|_| capital).map(|(file, _)| file.clone())
    }

    /// A file, a folder, an edit, or a path from the repository's root.
    fn path(&mut self, word: &str) -> Last {
        let (head, rest) = word.split_once('/').unwrap_or((word, ""));
        if !self.tree.crates.contains(head) {
            // `src/lib.rt` alone stands for that of every crate.
            if head != "src" && !self.tree.root.join(word).exists() {
                self.fault(format!("{word} is not there"));
            }
            return Last::Nothing;
        }
        let folder = rest.split('/').next().unwrap_or("");
        if !["specs", "proofs", "src"].contains(&folder) {
            self.edit(head, rest);
            return Last::Edit(head.into());
        }
        if !self.tree.has(word) {
            self.fault(format!("{word} is not there"));
            return Last::Nothing;
        }
        let short = rest.rsplit('/').next().unwrap_or(rest);
        self.short.insert(short.into(), word.into());
        Last::Path(word.into())
    }

    fn edit(&mut self, head: &str, name: &str) {
        let edit = format!("{head}/{name}");
        if self.tree.edits.contains(&edit) {
            self.cited.insert(edit);
        } else {
            self.fault(format!("{edit} is no edit"));
        }
    }

    /// Names in parentheses behind a place: each is defined there.
    fn names(&mut self, path: &str, tokens: &[Token]) {
        for token in tokens.iter().filter(|token| token.is_word()) {
            if token.text.contains('/') {
                self.path(&token.text);
            } else if !self.tree.defines(path, &token.text) {
                self.fault(format!("{path} does not define {}", token.text));
            }
        }
    }

    /// Other text in parentheses: it may cite files and names.
    fn prose(&mut self, tokens: &[Token]) {
        for token in tokens.iter().filter(|token| token.is_word()) {
            match token.text.contains('/') {
                true => drop(self.path(&token.text)),
                false => self.name(token),
            }
        }
    }

    /// A word that looks like a name of the code is defined somewhere.
    fn name(&mut self, token: &Token) {
        let word = token.text.as_str();
        let chars: Vec<char> = word.chars().collect();
        let humped = chars
            .windows(2)
            .any(|pair| pair[0].is_ascii_lowercase() && pair[1].is_ascii_uppercase());
        let looks = is_name(word) && (token.quoted || word.contains('_') || humped);
        if looks && !KEYWORDS.contains(&word) && !self.tree.defines("", word) {
            self.fault(format!("{word} is defined nowhere"));
        }
    }
}

/// Single words with a comma between each two.
fn is_list(tokens: &[Token]) -> bool {
    let form = |(place, token): (usize, &Token)| match place % 2 {
        0 => token.is_word(),
        _ => token.text == ",",
    };
    tokens.iter().enumerate().all(form)
}

/// Behind other text an edit's crate still holds, a place does not.
fn keep_edit(last: Last) -> Last {
    match last {
        Last::Edit(_) => last,
        _ => Last::Nothing,
    }
}

/// A word or a sign. A quoted word stands in backticks alone.
#[derive(Debug)]
struct Token {
    text: String,
    quoted: bool,
}

impl Token {
    fn is_word(&self) -> bool {
        self.text.len() > 1 || self.text.starts_with(|c: char| c.is_ascii_alphanumeric())
    }
}

/// Words of letters, digits and `_ - . /`, signs one by one. Text in backticks is one
/// word if it is a name, else it is left out: a piece of code.
fn tokens(cell: &str) -> Vec<Token> {
    let mut tokens = Vec::new();
    for (place, part) in cell.split('`').enumerate() {
        match place % 2 {
            0 => plain_tokens(part, &mut tokens),
            _ if is_name(part) || part.contains('/') && !part.contains(' ') => {
                tokens.push(Token {
                    text: part.into(),
                    quoted: true,
                });
            }
            _ => {}
        }
    }
    tokens
}

fn plain_tokens(text: &str, tokens: &mut Vec<Token>) {
    let inner = |c: char| c.is_ascii_alphanumeric() || ['_', '-', '.', '/'].contains(&c);
    let mut word = String::new();
    for c in text.chars().chain([' ']) {
        if inner(c) {
            word.push(c);
            continue;
        }
        let trimmed = word.trim_matches(['.', '-']);
        if !trimmed.is_empty() {
            tokens.push(Token {
                text: trimmed.into(),
                quoted: false,
            });
        }
        word.clear();
        if !c.is_whitespace() {
            tokens.push(Token {
                text: c.into(),
                quoted: false,
            });
        }
    }
}

/// How many tokens stand before the parenthesis that closes.
fn inside(tokens: &[Token]) -> usize {
    let closing = tokens.iter().position(|token| token.text == ")");
    closing.unwrap_or(tokens.len())
}
