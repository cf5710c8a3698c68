//! The oracle held against itself: the chain check against sound lists over whole
//! numbers, the original against document 01's words, refusals against what they
//! leave.

mod examples;
mod join;
mod lists;
mod load;
mod replies;
mod widths;

use std::collections::BTreeMap;
use std::fmt::Display;

/// Cases and failures of each test, and how often each answer came.
#[derive(Default)]
pub struct Report {
    text: String,
    failures: u64,
}

/// One test's count of cases, failures and answers.
struct Tally {
    name: &'static str,
    cases: u64,
    failures: u64,
    seen: BTreeMap<String, u64>,
}

impl Tally {
    fn new(name: &'static str) -> Self {
        Self {
            name,
            cases: 0,
            failures: 0,
            seen: BTreeMap::new(),
        }
    }

    /// Counts a case. The first few that fail are shown.
    fn case(&mut self, holds: bool, input: impl FnOnce() -> String) {
        self.cases += 1;
        if !holds {
            self.failures += 1;
            if self.failures <= 3 {
                eprintln!("{}: {}", self.name, input());
            }
        }
    }

    fn saw(&mut self, what: impl Display) {
        *self.seen.entry(what.to_string()).or_default() += 1;
    }
}

impl Report {
    fn add(&mut self, tally: Tally) {
        let Tally {
            name,
            cases,
            failures,
            seen,
        } = tally;
        self.text += &format!("{name}: {cases} cases, {failures} failures\n");
        for (what, times) in seen {
            self.text += &format!("    {what}: {times}\n");
        }
        self.failures += failures;
    }
}

/// The report and the number of failures.
pub fn run(seed: u64, count: u64) -> (String, u64) {
    let mut report = Report::default();
    examples::run(&mut report);
    lists::run(&mut report, seed, count);
    load::run(&mut report, seed, count);
    join::run(&mut report, seed, count);
    replies::run(&mut report, seed, count);
    widths::run(&mut report, seed, count);
    (report.text, report.failures)
}
