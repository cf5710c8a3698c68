//! The tables of a page.

/// A row of a table below its heading.
pub struct Row {
    /// The page's line, counted from 1.
    pub line: usize,
    pub headings: Vec<String>,
    pub cells: Vec<String>,
}

/// Every row of every table. A table is a heading, a line of dashes and rows.
pub fn rows(page: &str) -> Vec<Row> {
    let mut rows = Vec::new();
    let mut headings: Vec<String> = Vec::new();
    for (place, line) in page.lines().enumerate() {
        if !line.starts_with('|') {
            headings.clear();
        } else if headings.is_empty() {
            headings = cells(line);
        } else if !line.trim_matches(['|', '-', ' ', ':']).is_empty() {
            rows.push(Row {
                line: place + 1,
                headings: headings.clone(),
                cells: cells(line),
            });
        }
    }
    rows
}

/// What stands between the bars; a bar behind a backslash is text.
fn cells(line: &str) -> Vec<String> {
    let hidden = line.trim().replace("\\|", "\u{0}");
    let inner = hidden.strip_prefix('|').unwrap_or(&hidden);
    let inner = inner.strip_suffix('|').unwrap_or(inner);
    inner
        .split('|')
        .map(|cell| cell.trim().replace('\u{0}', "|"))
        .collect()
}

/// Whether a word can be a name: letters, digits, `_`, `-`, the first a letter, the last
/// a letter or a digit.
pub fn is_name(word: &str) -> bool {
    let inner = |c: char| c.is_ascii_alphanumeric() || c == '_' || c == '-';
    word.starts_with(|c: char| c.is_ascii_alphabetic())
        && word.ends_with(|c: char| c.is_ascii_alphanumeric())
        && word.chars().all(inner)
}
