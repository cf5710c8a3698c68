//! The harness: the published Rust and document 01 as an oracle (README.md).

mod bench;
mod compare;
mod coverage;
mod examples;
mod exported;
mod functions;
mod generate;
mod inputs;
mod numbered;
mod oracle;
mod protocol;
mod replay;
mod rng;
mod round_trips;
mod selftest;
mod side;
mod sound;

use protocol::Question;
use std::fs::File;
use std::io::{self, BufRead, BufWriter, Read, Write};
use std::process::ExitCode;

const USAGE: &str = "\
harness ask                           answer questions, a line each
harness vectors KIND SEED COUNT FILE  write questions and answers
harness selftest SEED COUNT           hold the oracle against itself
harness callcheck                     document 01's program, by the oracle
harness compare SEED SECONDS [KIND..] hold the proved code against the oracle
harness bench [KIND..]                time ratios of the proved code to Rust
harness examples                      compile and run the examples, and call the header's functions from C
harness coverage [COVERAGE EDITS]     hold the pages of docs/ against the tree
harness replay DIR SEED               write the files of the replay programs in DIR";

fn main() -> ExitCode {
    let arguments: Vec<String> = std::env::args().skip(1).collect();
    let words: Vec<&str> = arguments.iter().map(String::as_str).collect();
    let done = match words[..] {
        ["ask"] => ask(),
        ["vectors", kind, seed, count, file] => vectors(kind, seed, count, file),
        ["selftest", seed, count] => run_selftest(seed, count),
        ["callcheck"] => callcheck(),
        ["bench", ref kinds @ ..] => bench::run(kinds),
        ["examples"] => examples::run(),
        ["coverage", ref pages @ ..] => coverage::run(pages),
        ["replay", crates, seed] => replay(crates, seed),
        ["compare", seed, seconds, ref kinds @ ..] => compare(seed, seconds, kinds),
        _ => Err(USAGE.into()),
    };
    match done {
        Ok(()) => ExitCode::SUCCESS,
        Err(message) => {
            eprintln!("{message}");
            ExitCode::FAILURE
        }
    }
}

fn failed(error: io::Error) -> String {
    error.to_string()
}

fn number(word: &str) -> Result<u64, String> {
    word.parse().map_err(|_| format!("{word} is no number"))
}

/// Answers each line of the input; a line that is no question gets `error` and why.
fn ask() -> Result<(), String> {
    let mut output = io::stdout().lock();
    for line in io::stdin().lock().lines() {
        let answer = match Question::parse(&line.map_err(failed)?) {
            Ok(question) => question.reply().line(),
            Err(why) => format!("error {why}"),
        };
        writeln!(output, "{answer}")
            .and_then(|()| output.flush())
            .map_err(failed)?;
    }
    Ok(())
}

/// A question of more numbers is left to runs in one process.
const LONGEST_VECTOR: usize = 20_000;

/// Writes `count` questions of a kind, each with its answer on the next line.
fn vectors(kind: &str, seed: &str, count: &str, file: &str) -> Result<(), String> {
    let (seed, count) = (number(seed)?, number(count)?);
    let mut generator = generate::Generator::new(kind, seed).ok_or(format!("no kind {kind}"))?;
    let mut output = BufWriter::new(File::create(file).map_err(failed)?);
    let mut written = 0;
    while written < count {
        let question = generator.question();
        if question.size() <= LONGEST_VECTOR {
            let reply = question.reply();
            writeln!(output, "{}\n{}", question.line(), reply.line()).map_err(failed)?;
            written += 1;
        }
    }
    output.flush().map_err(failed)
}

fn run_selftest(seed: &str, count: &str) -> Result<(), String> {
    let (report, failures) = selftest::run(number(seed)?, number(count)?);
    print!("{report}");
    if failures == 0 {
        Ok(())
    } else {
        Err(format!("{failures} failures"))
    }
}

fn compare(seed: &str, seconds: &str, kinds: &[&str]) -> Result<(), String> {
    compare::run(number(seed)?, number(seconds)?, kinds)
}

fn replay(crates: &str, seed: &str) -> Result<(), String> {
    replay::run(crates, number(seed)?)
}

fn callcheck() -> Result<(), String> {
    let mut input = Vec::new();
    io::stdin().read_to_end(&mut input).map_err(failed)?;
    io::stdout()
        .write_all(&oracle::callcheck(&input))
        .map_err(failed)
}
