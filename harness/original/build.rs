//! Brings the published Rust source into this crate without changing it: copy.rs,
//! memw.rs and types.rs become modules at their own path, and the items of
//! trace_builder.rs that document 01 covers are cut out of it word for word.

use std::path::{Path, PathBuf};
use std::{env, fs};

/// Seen from the repository's root, as is any relative path in MINJOLF_SRC.
const DEFAULT_SOURCE: &str = "../shared/docs/src";

/// Items of trace_builder.rs taken whole, by the text their first line begins with.
const ITEMS: &[&str] = &[
    "type MemoryCell",
    "type RegisterCell",
    "struct MemoryState",
    "struct RegisterState",
    "fn pack_register_value",
    "enum MemwRoute",
    "fn classify_memw",
    "struct MemwBuckets",
    "trait MemwSink",
    "impl MemwSink for MemwBuckets",
    "fn build_reg_fallback",
    "fn collect_copy_register_ops",
    "fn collect_copy_ops",
    "fn is_aligned_op",
    "pub(crate) fn is_register_op",
    "fn reg_ts_delta_in_range",
];

/// Implementations of which only the functions named are taken: the others speak of
/// images, epochs and final states, which document 01 leaves out.
const METHODS: &[(&str, &[&str])] = &[
    (
        "impl MemoryState",
        &[
            "new",
            "read_byte",
            "write_byte",
            "read_bytes",
            "write_bytes",
        ],
    ),
    (
        "impl RegisterState",
        &["new", "read", "write", "read_index", "write_index"],
    ),
    ("impl MemwBuckets", &["push"]),
];

fn main() {
    println!("cargo:rerun-if-env-changed=MINJOLF_SRC");
    let source = source_directory();
    let out = PathBuf::from(env::var("OUT_DIR").unwrap());
    let modules = ["copy", "memw"].map(|name| module(&source, "pub ", name, name));
    fs::write(out.join("tables.rs"), modules.concat()).unwrap();
    let types = module(&source, "", "types", "published");
    fs::write(out.join("types.rs"), types).unwrap();
    let text = read(&source.join("trace_builder.rs"));
    fs::write(out.join("trace_builder.rs"), cut_all(&text)).unwrap();
}

fn source_directory() -> PathBuf {
    let named = env::var("MINJOLF_SRC").unwrap_or_else(|_| DEFAULT_SOURCE.into());
    let root = PathBuf::from(env::var("CARGO_MANIFEST_DIR").unwrap()).join("../..");
    let source = root.join(&named);
    source.canonicalize().unwrap_or_else(|error| {
        fail(&format!(
            "no Rust source at `{named}` as seen from the repository's root ({error}); \
             set MINJOLF_SRC to the directory that has copy.rs, memw.rs, types.rs and \
             trace_builder.rs"
        ))
    })
}

fn read(file: &Path) -> String {
    println!("cargo:rerun-if-changed={}", file.display());
    fs::read_to_string(file)
        .unwrap_or_else(|error| fail(&format!("{} of the Rust source: {error}", file.display())))
}

fn fail(message: &str) -> ! {
    eprintln!("{message}");
    std::process::exit(1)
}

/// A line that declares the unchanged file as a module.
fn module(source: &Path, visibility: &str, file: &str, name: &str) -> String {
    let path = source.join(format!("{file}.rs"));
    read(&path);
    format!("#[path = {path:?}]\n#[allow(dead_code, unused_imports)]\n{visibility}mod {name};\n")
}

fn cut_all(text: &str) -> String {
    let whole = ITEMS.iter().map(|head| cut(text, "", head));
    let parts = METHODS.iter().map(|(head, names)| {
        let block = cut(text, "", head);
        let methods = names
            .iter()
            .map(|name| cut(&block, "    ", &format!("fn {name}")));
        format!("{head} {{\n{}}}\n", methods.collect::<String>())
    });
    whole.chain(parts).collect()
}

/// The item that begins with `head` at this indent, with the attributes and
/// comments right above it.
fn cut(text: &str, indent: &str, head: &str) -> String {
    let opening = format!("{indent}{head}");
    let mut above = None;
    let mut at = 0;
    for line in text.split_inclusive('\n') {
        let begins = line.strip_prefix(&opening);
        if begins.is_some_and(|rest| !rest.starts_with(|c: char| c.is_alphanumeric() || c == '_')) {
            let start = above.unwrap_or(at);
            return format!("{}\n", &text[start..at + item_length(&text[at..], head)]);
        }
        let words = line.trim_start();
        let leads = words.starts_with("///") || words.starts_with("#[");
        above = if leads { above.or(Some(at)) } else { None };
        at += line.len();
    }
    fail(&format!("trace_builder.rs has no item `{head}`"))
}

/// The bytes of an item: to the brace that closes its first one, or to a semicolon
/// before any.
fn item_length(text: &str, head: &str) -> usize {
    let bytes = text.as_bytes();
    let mut depth = 0;
    let mut at = 0;
    while at < bytes.len() {
        let skipped = skip(&text[at..]);
        if skipped > 0 {
            at += skipped;
            continue;
        }
        at += 1;
        match bytes[at - 1] {
            b'{' | b'(' | b'[' => depth += 1,
            b')' | b']' => depth -= 1,
            b'}' => {
                depth -= 1;
                if depth == 0 {
                    return at;
                }
            }
            b';' if depth == 0 => return at,
            _ => {}
        }
    }
    fail(&format!("item `{head}` of trace_builder.rs does not end"))
}

/// The length of a comment, string or character that begins here; else 0.
fn skip(text: &str) -> usize {
    if text.starts_with("//") {
        return text.find('\n').unwrap_or(text.len());
    }
    if text.starts_with("/*") {
        return text.find("*/").map_or(text.len(), |end| end + 2);
    }
    let quote = text.as_bytes()[0];
    let character = quote == b'\'' && is_character(text);
    if quote != b'"' && !character {
        return 0;
    }
    let mut at = 1;
    while at < text.len() && text.as_bytes()[at] != quote {
        at += if text.as_bytes()[at] == b'\\' { 2 } else { 1 };
    }
    at + 1
}

/// A character literal, and not a lifetime.
fn is_character(text: &str) -> bool {
    let mut characters = text.chars().skip(1);
    match characters.next() {
        Some('\\') => true,
        Some(_) => characters.next() == Some('\''),
        None => false,
    }
}
