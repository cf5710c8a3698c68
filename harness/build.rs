//! Links the archive of the proved code if there is one. Each exported function that
//! it has gets a cfg (`exported_field_add`), so that the harness builds with any part
//! of them, or none.

#[allow(dead_code)]
#[path = "src/functions.rs"]
mod functions;

use std::path::{Path, PathBuf};
use std::{env, fs};

/// Seen from the repository's root, as is any relative path in MINJOLF_LIB.
const DEFAULT_ARCHIVE: &str = "target/staticlib/libexports.a";

/// What only the benchmark calls, if it is there.
const RAW: &str = "element_mul";

fn main() {
    println!("cargo::rerun-if-changed=build.rs");
    println!("cargo::rerun-if-changed=src/functions.rs");
    println!("cargo::rerun-if-env-changed=MINJOLF_LIB");
    let archive = archive_path();
    println!("cargo::rerun-if-changed={}", archive.display());
    println!("cargo::rustc-env=MINJOLF_ARCHIVE={}", archive.display());

    let symbols = symbols(&archive);
    let mut exported = Vec::new();
    for name in functions::FUNCTIONS.iter().map(|f| f.0).chain([RAW]) {
        println!("cargo::rustc-check-cfg=cfg(exported_{name})");
        if symbols.iter().any(|symbol| symbol == name) {
            println!("cargo::rustc-cfg=exported_{name}");
            exported.push(name);
        }
    }
    println!("cargo::rustc-env=MINJOLF_EXPORTED={}", exported.join(" "));
    if !exported.is_empty() {
        println!("cargo::rustc-link-arg-bins={}", archive.display());
    }
}

fn archive_path() -> PathBuf {
    let named = env::var("MINJOLF_LIB").unwrap_or_else(|_| DEFAULT_ARCHIVE.into());
    let root = PathBuf::from(env::var("CARGO_MANIFEST_DIR").unwrap()).join("..");
    let path = root.join(named);
    path.canonicalize().unwrap_or(path)
}

fn fail(archive: &Path, why: &str) -> ! {
    eprintln!("{}: {why}", archive.display());
    std::process::exit(1)
}

/// The symbols that the archive defines; none if it is not there.
fn symbols(archive: &Path) -> Vec<String> {
    let Ok(bytes) = fs::read(archive) else {
        return Vec::new();
    };
    index(&bytes)
        .and_then(names)
        .unwrap_or_else(|| fail(archive, "no archive with an index of symbols"))
}

/// The index is the first member, named `/`: a header of 60 bytes, its size in decimal
/// digits at 48.
fn index(archive: &[u8]) -> Option<&[u8]> {
    let member = archive.strip_prefix(b"!<arch>\n")?;
    let (header, rest) = member.split_at_checked(60)?;
    let size = str::from_utf8(&header[48..58]).ok()?.trim().parse().ok()?;
    header.starts_with(b"/ ").then_some(rest.get(..size)?)
}

/// An index is a number of symbols, big end first, an offset of 4 bytes for each, and
/// their names, each with a zero after it.
fn names(index: &[u8]) -> Option<Vec<String>> {
    let (count, rest) = index.split_first_chunk::<4>()?;
    let count = u32::from_be_bytes(*count) as usize;
    let text = rest.get(4 * count..)?;
    let name = |bytes: &[u8]| String::from_utf8(bytes.to_vec()).ok();
    text.split(|&byte| byte == 0)
        .take(count)
        .map(name)
        .collect()
}
