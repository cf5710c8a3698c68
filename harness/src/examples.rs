//! The worked examples of docs/CALLING.md, compiled against the archive and run: each
//! must print what `examples/calling.txt` has. And the C program `prototypes.c`, which
//! calls every function of the header on generated questions: its answers must be the
//! oracle's.

use crate::exported;
use crate::generate::Generator;
use crate::protocol::FUNCTIONS;
use std::fs;
use std::io::Write as _;
use std::path::{Path, PathBuf};
use std::process::{Command, Stdio};

/// Questions to each function of the header, of no more numbers than `LONGEST`.
const QUESTIONS: usize = 200;
const LONGEST: usize = 2_000;
const SEED: u64 = 1;

/// Compiles and runs the example in C, the one in Rust, and the calls of all prototypes.
pub fn run() -> Result<(), String> {
    exported::some()?;
    let built = std::env::temp_dir().join(format!("minjolf-examples-{}", std::process::id()));
    fs::create_dir_all(&built).map_err(text)?;
    let done = in_folder(&built);
    let _ = fs::remove_dir_all(&built);
    done
}

fn root() -> PathBuf {
    Path::new(env!("CARGO_MANIFEST_DIR")).join("..")
}

fn in_folder(built: &Path) -> Result<(), String> {
    let examples = root().join("examples");
    let expected = fs::read_to_string(examples.join("calling.txt")).map_err(text)?;

    let in_c = built.join("calling_c");
    build("the example in C", cc(&examples.join("calling.c"), &in_c))?;
    compare("the example in C", &in_c, &expected)?;

    let in_rust = built.join("calling_rust");
    let mut rustc = Command::new("rustc");
    rustc
        .args(["--edition", "2024", "-D", "warnings", "-C"])
        .arg(format!("link-arg={}", exported::ARCHIVE))
        .arg(examples.join("calling.rs"))
        .arg("-o")
        .arg(&in_rust);
    build("the example in Rust", rustc)?;
    compare("the example in Rust", &in_rust, &expected)?;

    let prototypes = built.join("prototypes");
    let source = root().join("harness/prototypes.c");
    build("harness/prototypes.c", cc(&source, &prototypes))?;
    call_all(&prototypes)
}

/// The C compiler on a program that is linked with the archive.
fn cc(source: &Path, program: &Path) -> Command {
    let mut cc = Command::new("cc");
    cc.args(["-std=c99", "-pedantic", "-Wall", "-Wextra", "-Werror", "-I"])
        .arg(root().join("include"))
        .arg(source)
        .arg(exported::ARCHIVE)
        .arg("-o")
        .arg(program);
    cc
}

fn build(what: &str, mut compiler: Command) -> Result<(), String> {
    match compiler.status().map_err(text)?.success() {
        true => Ok(()),
        false => Err(format!("{what} does not compile")),
    }
}

/// Runs an example and compares what it prints.
fn compare(what: &str, program: &Path, expected: &str) -> Result<(), String> {
    let output = Command::new(program).output().map_err(text)?;
    let printed = String::from_utf8_lossy(&output.stdout);
    if !output.status.success() || printed != expected {
        return Err(format!(
            "{what} printed, in place of examples/calling.txt:\n{printed}"
        ));
    }
    println!("{what}: as examples/calling.txt has it");
    Ok(())
}

/// Asks the C program for every function that the header declares.
fn call_all(program: &Path) -> Result<(), String> {
    let header = fs::read_to_string(root().join("include/minjolf.h")).map_err(text)?;
    let declared = declared(&header);
    let names: Vec<&str> = FUNCTIONS.iter().map(|f| f.0).collect();
    if let Some(name) = declared.iter().find(|name| !names.contains(&name.as_str())) {
        return Err(format!(
            "include/minjolf.h: the harness does not know {name}"
        ));
    }
    for name in names.into_iter().filter(|&name| name != "callcheck") {
        if !declared.iter().any(|known| known == name) {
            return Err(format!("include/minjolf.h: no prototype of {name}"));
        }
        call(program, name)?;
    }
    let functions = declared.len();
    println!("{functions} prototypes called from C, {QUESTIONS} times each: as the oracle answers");
    Ok(())
}

/// The names of the header's prototypes: the words before an opening parenthesis that
/// stands in no other, comments and the preprocessor's lines left out.
fn declared(header: &str) -> Vec<String> {
    let lines = header.lines().filter(|line| !line.starts_with('#'));
    let code: String = lines.collect::<Vec<_>>().join("\n");
    let mut code = code.as_str();
    let mut plain = String::new();
    while let Some((before, comment)) = code.split_once("/*") {
        plain += before;
        code = comment.split_once("*/").map_or("", |(_, after)| after);
    }
    plain += code;
    let mut names = Vec::new();
    let mut depth = 0;
    for (place, c) in plain.char_indices() {
        if c == '(' && depth == 0 {
            let before = plain[..place].trim_end();
            let word = before.rsplit(|c: char| !c.is_alphanumeric() && c != '_');
            names.extend(word.take(1).map(str::to_string));
        }
        depth += i32::from(c == '(') - i32::from(c == ')');
    }
    names
}

/// One function's questions, a line each, and the oracle's answers.
fn call(program: &Path, name: &str) -> Result<(), String> {
    let mut generator = Generator::new(name, SEED).expect("a function's name");
    let (mut questions, mut answers) = (String::new(), Vec::new());
    while answers.len() < QUESTIONS {
        let (question, reply) = generator.asked();
        if question.size() <= LONGEST {
            questions += &(question.line() + "\n");
            answers.push(reply.line());
        }
    }
    let printed = ask(program, questions)?;
    let lines: Vec<&str> = printed.lines().collect();
    match (0..QUESTIONS).find(|&i| lines.get(i) != Some(&answers[i].as_str())) {
        None => Ok(()),
        Some(i) => Err(format!(
            "harness/prototypes.c answers {} to question {i} of {name}, in place of\n{}",
            lines.get(i).unwrap_or(&"nothing"),
            answers[i]
        )),
    }
}

/// What the program prints. Another thread writes, since it answers as it reads.
fn ask(program: &Path, questions: String) -> Result<String, String> {
    let mut child = Command::new(program)
        .stdin(Stdio::piped())
        .stdout(Stdio::piped())
        .spawn()
        .map_err(text)?;
    let mut input = child.stdin.take().expect("piped");
    // A program that ends before it has read all closes the pipe, and its answers lack.
    let writer = std::thread::spawn(move || input.write_all(questions.as_bytes()));
    let output = child.wait_with_output().map_err(text)?;
    let _ = writer.join();
    match output.status.success() {
        true => String::from_utf8(output.stdout).map_err(|error| error.to_string()),
        false => Err(format!("harness/prototypes.c ended with {}", output.status)),
    }
}

fn text(error: std::io::Error) -> String {
    error.to_string()
}
