//! The proved code against the oracle, on the same generated questions. Answers, every
//! lent list and every input list are compared whole, so that what a refusal or a result
//! must leave alone is compared too. A run fails if anything differs, and if a function, a
//! refusal or a length at the limit that it should have met did not occur.

mod joins;
mod loads;
mod tally;

use crate::bench::keep_memory;
use crate::exported;
use crate::generate::programs::question_of;
use crate::generate::{Generator, carries, join, load, lookups};
use crate::inputs;
use crate::protocol::{Argument, FUNCTIONS, Question, Reply};
use crate::side::EXPORTED;
use original::tables::residues;
use std::fs::{self, File};
use std::io::{self, Write as _};
use std::path::{Path, PathBuf};
use std::process::{Command, ExitStatus, Stdio};
use std::time::{Duration, Instant};
use tally::Tally;

/// Where mismatches are saved.
const MISMATCHES: &str = concat!(env!("CARGO_MANIFEST_DIR"), "/mismatches");
/// Of each function, so many mismatches are saved, but none after questions of so many
/// numbers in all; all are counted.
const SAVED: u64 = 20;
const SAVED_NUMBERS: usize = 100_000;
/// Cases between two looks at the clock.
const BATCH: u64 = 16;
/// A function is asked past its share of the time until all has occurred that should, or
/// until it has been asked so often.
const PATIENCE: u64 = 20_000;
/// The program, unless MINJOLF_CALLCHECK names another; seen from the repository's root.
const CALLCHECK: &str = "target/bin/callcheck";

/// Compares for so many seconds, shared by the functions that the kinds name.
pub fn run(seed: u64, seconds: u64, kinds: &[&str]) -> Result<(), String> {
    let names = names_of(kinds)?;
    let (here, absent): (Vec<&str>, Vec<&str>) = names.into_iter().partition(|name| is_here(name));
    if here.is_empty() {
        exported::some()?;
    }
    // Fresh pages for every long list would take half of the time.
    keep_memory();
    let share = Duration::from_secs(seconds) / here.len().max(1) as u32;
    let (mut cases, mut mismatches) = (0, 0);
    let mut faults: Vec<String> = Vec::new();
    for name in here {
        let comparison = Comparison::run(name, seed, share)?;
        print!("{}", comparison.tally.text());
        cases += comparison.tally.cases;
        mismatches += comparison.tally.mismatches;
        faults.extend(comparison.tally.missing());
        let after = match name {
            "generate_load" => loads::run(seed),
            join::JOIN => joins::run(seed),
            _ => Ok(String::new()),
        };
        match after {
            Ok(seen) => print!("{seen}"),
            Err(why) => faults.push(why),
        }
    }
    println!("seed {seed}: {cases} cases, {mismatches} mismatches");
    if mismatches != 0 {
        faults.push(format!("mismatches are saved in {MISMATCHES}"));
    }
    faults.extend(absent.iter().map(|name| format!("{name}: not there")));
    match faults.is_empty() {
        true => Ok(()),
        false => Err(faults.join("\n")),
    }
}

/// The functions whose names begin with one of the kinds; all if there is none.
fn names_of(kinds: &[&str]) -> Result<Vec<&'static str>, String> {
    let names = || FUNCTIONS.iter().map(|f| f.0);
    let unknown = |kind: &&&str| !names().any(|name| name.starts_with(**kind));
    if let Some(kind) = kinds.iter().find(unknown) {
        return Err(format!("no function begins with {kind}"));
    }
    let wanted = |name: &&str| kinds.is_empty() || kinds.iter().any(|kind| name.starts_with(kind));
    Ok(names().filter(wanted).collect())
}

fn is_here(name: &str) -> bool {
    exported::has(name) || (name == "callcheck" && program().exists())
}

fn program() -> PathBuf {
    let root = Path::new(env!("CARGO_MANIFEST_DIR")).join("..");
    root.join(std::env::var_os("MINJOLF_CALLCHECK").unwrap_or(CALLCHECK.into()))
}

/// What a function is asked first in every run, if there is something.
fn first(name: &str, seed: u64) -> Result<Vec<Question>, String> {
    match name {
        "callcheck" => {
            let inputs = inputs::refused().into_iter().chain(inputs::recorded()?);
            Ok(inputs.map(question_of).collect())
        }
        carries::MAKER => Ok(carries::questions(seed)),
        "generate_load" => Ok(load::always()),
        join::JOIN => Ok(join::always()),
        lookups::LOOKUPS => Ok(lookups::always()),
        _ => Ok(Vec::new()),
    }
}

/// One function's run.
struct Comparison {
    tally: Tally,
    /// Where its mismatches are saved, and the numbers of the questions saved so far.
    file: PathBuf,
    saved: usize,
    /// What our last call left, where the next goes on from it.
    left: Vec<Vec<u64>>,
}

impl Comparison {
    /// For so long, and until it has seen enough.
    fn run(name: &'static str, seed: u64, share: Duration) -> Result<Self, String> {
        let mut comparison = Self {
            tally: Tally::new(name),
            file: Path::new(MISMATCHES).join(format!("{name}-{seed}")),
            saved: 0,
            left: vec![],
        };
        let mut generator =
            Generator::of_all_lengths(name, seed, first(name, seed)?).expect("a function's name");
        let end = Instant::now() + share;
        while Instant::now() < end || !comparison.has_seen_enough(&generator) {
            for _ in 0..BATCH {
                let (question, reply) = generator.asked();
                let held = comparison.case(&question, &reply);
                held.map_err(|error| format!("{name}: {error}"))?;
            }
        }
        Ok(comparison)
    }

    fn has_seen_enough(&self, generator: &Generator) -> bool {
        let all = self.tally.cases >= PATIENCE || self.tally.missing().is_empty();
        all && generator.is_past_forced()
    }

    fn case(&mut self, question: &Question, reply: &Reply) -> io::Result<()> {
        let (ours, inputs) = ours(question)?;
        self.tally.saw(question, reply);
        let kept = inputs.iter().eq(question.lists(false));
        if ours != *reply || !kept {
            self.mismatch(question, reply, &ours, &inputs)?;
        }
        if reply.answer.number == 0 {
            self.whole_row(question)?;
        }
        self.follow(question, ours);
        Ok(())
    }

    /// Counts and saves a mismatch.
    fn mismatch(
        &mut self,
        asked: &Question,
        reply: &Reply,
        ours: &Reply,
        inputs: &[Vec<u64>],
    ) -> io::Result<()> {
        self.tally.mismatches += 1;
        if self.tally.mismatches > SAVED || self.saved > SAVED_NUMBERS {
            return Ok(());
        }
        self.saved += asked.size();
        let inputs: Vec<Argument> = inputs.iter().cloned().map(Argument::List).collect();
        let lines = [
            asked.line(),
            reply.line(),
            ours.line(),
            format!("inputs{}", crate::protocol::written(&inputs)),
        ];
        fs::create_dir_all(MISMATCHES)?;
        let mut output = match self.tally.mismatches {
            1 => File::create(&self.file)?,
            _ => File::options().append(true).open(&self.file)?,
        };
        writeln!(output, "{}", lines.join("\n"))
    }

    /// Of a row of the original's two tables, all residues by number.
    fn whole_row(&mut self, question: &Question) -> io::Result<()> {
        let all = match (question.name(), &question.arguments[..]) {
            ("copy_residue", [Argument::Number(gap), Argument::List(row), _]) => {
                residues::copy_residues(*gap, row)
            }
            ("memw_residue", [Argument::List(row), _]) => residues::memw_residues(row),
            _ => return Ok(()),
        };
        self.tally.whole_rows += 1;
        let mut asked = question.clone();
        for (number, residue) in all.into_iter().enumerate() {
            *asked.arguments.last_mut().expect("a number") = Argument::Number(number as u64);
            let (ours, inputs) = EXPORTED.reply_and_inputs(&asked);
            let kept = inputs.iter().eq(asked.lists(false));
            if (ours.answer.number, ours.answer.value) != (0, residue) || !kept {
                self.mismatch(&asked, &asked.reply(), &ours, &inputs)?;
            }
        }
        Ok(())
    }

    /// Counts a call in turn, and keeps what this one leaves.
    fn follow(&mut self, question: &Question, ours: Reply) {
        let carried = match question.name() {
            "collect_copy_ops" => 2,
            "collect_copy_register_ops" => 1,
            _ => return,
        };
        let found = question.lists(true).take(carried);
        self.tally.in_turn += u64::from(found.eq(self.left.iter()));
        self.left = ours.lent;
        self.left.truncate(carried);
    }
}

/// The reply of the proved code, and its input lists after the call.
fn ours(question: &Question) -> io::Result<(Reply, Vec<Vec<u64>>)> {
    match (question.name(), &question.arguments[..]) {
        ("callcheck", [Argument::List(input)]) => {
            let bytes: Vec<u8> = input.iter().map(|&byte| byte as u8).collect();
            let (status, output) = run_program(&bytes)?;
            // A program that a signal ended has no status of its own.
            let status = status.code().map_or(u64::MAX, |code| code as u64);
            Ok((Reply::of_output(status, &output), vec![input.clone()]))
        }
        _ => Ok(EXPORTED.reply_and_inputs(question)),
    }
}

/// How the program ends and what it writes on this input.
fn run_program(input: &[u8]) -> io::Result<(ExitStatus, Vec<u8>)> {
    let mut child = Command::new(program())
        .stdin(Stdio::piped())
        .stdout(Stdio::piped())
        .spawn()?;
    // A program that ends before it has read all closes the pipe.
    let written = child.stdin.take().expect("piped").write_all(input);
    if let Err(error) = written
        && error.kind() != io::ErrorKind::BrokenPipe
    {
        return Err(error);
    }
    let output = child.wait_with_output()?;
    Ok((output.status, output.stdout))
}
