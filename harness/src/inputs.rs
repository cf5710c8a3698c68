//! Inputs of the program `callcheck` that are always asked: the examples, the longest
//! whose last bytes decide, and one for each refusal.

use crate::oracle;
use std::collections::BTreeSet;
use std::fs::{self, DirEntry};
use std::path::Path;

/// The files `examples/callcheck/NAME.in` in the order of their names, then `longest`.
/// An error if a `NAME.out` is not the oracle's output.
pub fn recorded() -> Result<Vec<Vec<u8>>, String> {
    let mut inputs = examples().map_err(|why| format!("examples/callcheck: {why}"))?;
    inputs.extend(longest().map(String::into_bytes));
    Ok(inputs)
}

fn examples() -> Result<Vec<Vec<u8>>, String> {
    let folder = Path::new(env!("CARGO_MANIFEST_DIR")).join("../examples/callcheck");
    let files: Result<Vec<_>, _> = fs::read_dir(&folder).map_err(text)?.collect();
    let files = files.map_err(text)?;
    let stem = |file: &DirEntry| {
        let name = file.file_name().into_string().ok()?;
        let stem = name.strip_suffix(".in").or(name.strip_suffix(".out"));
        stem.map(str::to_string)
    };
    let names: BTreeSet<String> = files.iter().filter_map(stem).collect();
    names.iter().map(|name| example(&folder, name)).collect()
}

/// An input, once its `NAME.out` is found to be the oracle's output.
fn example(folder: &Path, name: &str) -> Result<Vec<u8>, String> {
    let read = |ending: &str| {
        let file = format!("{name}.{ending}");
        fs::read(folder.join(&file)).map_err(|why| format!("{file}: {why}"))
    };
    let input = read("in")?;
    let expected = oracle::callcheck(&input);
    if read("out")? != expected {
        let expected = String::from_utf8_lossy(&expected);
        return Err(format!(
            "{name}.out is not the oracle's output, which is:\n{expected}"
        ));
    }
    Ok(input)
}

/// Lines as long as they can be: 32 calls, all accepted, in 2,905 bytes; the same with a
/// call too many, refused with 9, whose newline is byte 2,995; with a digit there, so
/// that 10 refuses the line.
fn longest() -> [String; 3] {
    let gap = format!("gap\t{:020}\n", u32::MAX);
    let call = format!(
        "write\t{}\t{}\t{:020}\t{:020}",
        u64::MAX - 1,
        u64::MAX,
        u32::MAX,
        0
    );
    let accepted = gap + &format!("{call}\n").repeat(32);
    let too_many = format!("{accepted}{call}\nx\n");
    let too_long = format!("{accepted}{call}0\n");
    [accepted, too_many, too_long]
}

/// An input for each refusal that `callcheck` can print: 7, 10, 1, 3, 5, 2, 9.
pub fn refused() -> [Vec<u8>; 7] {
    let one_row_each = format!("gap\t8\n{}", "copy\t4\t0\t0\t0\n".repeat(33));
    [
        "gap\t4294967296\n",
        "gap\t8\ncopy\t4\t0\t16\n",
        "gap\t8\ncopy\t18446744073709551615\t0\t16\t9\n",
        "gap\t8\nset\t4\t0\t16\t9\n",
        "gap\t8\nwrite\t4\t0\t4294967295\t1\n",
        "gap\t8\ncopy\t4\t0\t1020\t9\n",
        &one_row_each,
    ]
    .map(|input| input.as_bytes().to_vec())
}

fn text(error: std::io::Error) -> String {
    error.to_string()
}
