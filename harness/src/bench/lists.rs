//! Chain check and read-back on sound lists and the row check on their rows, against a
//! good one-pass check in Rust.

use super::{Report, SIZES, Times, answered, one_pass, race_two};
use crate::exported;
use crate::generate::Generator;
use crate::oracle::{self, Answer, COPY_COLUMNS};
use crate::protocol::{Argument, Question};
use crate::rng::Rng;
use crate::sound::{self, Call, CutCall, Piece};
use original::tables::copy::cols;
use std::hint::black_box;

const GAP: u64 = 8;

/// Rows that are checked one by one.
const ROWS: usize = 256;

/// A check of a row alone, or of a list of one row.
type Check = fn(u64, &[u64]) -> Answer;

pub fn run(report: &mut Report) {
    let lists = SIZES.map(sound_list);
    if report.wants("chain_check") {
        report.sizes(
            "chain_check",
            "one-pass Rust",
            lists.each_ref().map(|list| check(list)),
        );
        let sides = [exported::chain_check, one_pass::chain_check];
        let what = "chain_check, a row of which only residue 39 is not 0";
        report.call(what, "one-pass Rust", walk(sides));
    }
    if report.wants("row_check") {
        let sides = [exported::row_check, one_pass::row_check];
        let times = one_by_one(sides, &live_rows(&lists[0]), answered(0));
        report.call("row_check, a sound row", "one-pass Rust", times);
        let what = "row_check, a row of which only residue 39 is not 0";
        report.call(what, "one-pass Rust", walk(sides));
    }
    if report.wants("read_back") {
        let times = lists.each_ref().map(|list| read_back(list));
        report.sizes("read_back, buffers not cleared", "one-pass Rust", times);
    }
}

fn check(list: &[u64]) -> Times {
    let list = black_box(list);
    let rows = list.len() / COPY_COLUMNS;
    let mut answers = [answered(0); 2];
    let [ours, rust] = &mut answers;
    let times = race_two(
        rows,
        &mut || *ours = black_box(exported::chain_check(GAP, list)),
        &mut || *rust = black_box(one_pass::chain_check(GAP, list)),
    );
    assert!(
        answers == [answered(rows); 2],
        "chain check: {answers:?} differ"
    );
    times
}

/// A call for each row, which has this answer.
fn one_by_one(sides: [Check; 2], rows: &[(u64, Vec<u64>)], expected: Answer) -> Times {
    let (sides, rows) = black_box((sides, rows));
    let mut answers = [(); 2].map(|()| vec![answered(0); rows.len()]);
    let [ours, rust] = &mut answers;
    let turn = |check: Check, answers: &mut [Answer]| {
        for ((gap, row), answer) in rows.iter().zip(answers) {
            *answer = black_box(check(*gap, row));
        }
    };
    let times = race_two(rows.len(), &mut || turn(sides[0], ours), &mut || {
        turn(sides[1], rust)
    });
    let mut all = answers.iter().flatten();
    assert!(
        all.all(|answer| *answer == expected),
        "checks of one row: not {expected:?} throughout"
    );
    times
}

/// Rows of which nothing but the last residue is amiss: here the proved code walks all
/// residues by number after its quick test.
fn walk(sides: [Check; 2]) -> Times {
    let expected = Answer {
        number: 16,
        value: 39,
        ..answered(0)
    };
    one_by_one(sides, &walked_rows(), expected)
}

/// Live rows of a sound list, no two alike.
fn live_rows(list: &[u64]) -> Vec<(u64, Vec<u64>)> {
    let rows = list.chunks(COPY_COLUMNS);
    let live = rows.filter(|row| row[cols::MU] == 1).step_by(3);
    let found: Vec<_> = live.take(ROWS).map(|row| (GAP, row.to_vec())).collect();
    assert_eq!(found.len(), ROWS, "live rows of a sound list");
    found
}

/// Rows that the chain check's questions have and that fail by residue 39 first.
fn walked_rows() -> Vec<(u64, Vec<u64>)> {
    let mut generator = Generator::new("chain_check", 1).expect("a kind");
    let mut found = Vec::new();
    while found.len() < ROWS {
        let question = generator.question();
        found.extend(row_of(&question));
    }
    found
}

fn row_of(question: &Question) -> Option<(u64, Vec<u64>)> {
    let [Argument::Number(gap), Argument::List(list)] = &question.arguments[..] else {
        return None;
    };
    let answer = oracle::chain_check(*gap, list);
    if (answer.number, answer.value) != (16, 39) {
        return None;
    }
    let start = answer.place as usize * COPY_COLUMNS;
    Some((*gap, list[start..start + COPY_COLUMNS].to_vec()))
}

/// What one side's read-back writes, over junk, and its answer.
struct Read {
    ops: Vec<u64>,
    calls: Vec<u64>,
    counts: [u64; 2],
    answer: Answer,
}

type ReadBack = fn(u64, &[u64], &mut [u64], &mut [u64], &mut [u64; 2]) -> Answer;

impl Read {
    fn new(rows: usize, junk: u64) -> Self {
        Self {
            ops: vec![junk; 16 * rows],
            calls: vec![junk; 5 * rows],
            counts: [junk; 2],
            answer: answered(0),
        }
    }

    fn turn(&mut self, list: &[u64], side: ReadBack) {
        let Read {
            ops, calls, counts, ..
        } = self;
        self.answer = black_box(side(GAP, list, ops, calls, counts));
    }

    /// The records and calls that were written, if nothing else was.
    fn written(&self, junk: u64) -> Option<(&[u64], &[u64])> {
        let [live, calls] = self.counts.map(|count| count as usize);
        let (ops, after_ops) = self.ops.split_at_checked(16 * live)?;
        let (calls, after_calls) = self.calls.split_at_checked(5 * calls)?;
        let mut rest = after_ops.iter().chain(after_calls);
        let kept = rest.all(|&number| number == junk);
        (kept && live > 0 && self.answer == answered(live)).then_some((ops, calls))
    }
}

fn read_back(list: &[u64]) -> Times {
    let list = black_box(list);
    let rows = list.len() / COPY_COLUMNS;
    let (mut ours, mut rust) = (Read::new(rows, 1), Read::new(rows, 2));
    let times = race_two(
        rows,
        &mut || ours.turn(list, exported::read_back),
        &mut || rust.turn(list, one_pass::read_back),
    );
    let read = ours.written(1);
    assert!(
        read.is_some() && read == rust.written(2),
        "read-back: results differ"
    );
    times
}

/// Calls of all kinds with counts up to 256, cut as the expansion cuts them, and
/// padding for the rows that are left.
fn sound_list(rows: usize) -> Vec<u64> {
    let mut rng = Rng::new(1);
    let mut list = Vec::with_capacity(rows * COPY_COLUMNS);
    loop {
        let cut = cut_call(&mut rng);
        if list.len() / COPY_COLUMNS + cut.pieces.len() > rows {
            break;
        }
        list.extend(sound::rows_of(&cut));
    }
    let padding = sound::dead_row(&nothing(), &piece(&mut rng, 8, 1));
    while list.len() < rows * COPY_COLUMNS {
        list.extend(&padding);
    }
    list
}

/// What padding says: count 8 and nothing else.
fn nothing() -> Call {
    Call {
        kind: 0,
        stamp: 0,
        src: 0,
        dst: 0,
        count: 8,
    }
}

fn cut_call(rng: &mut Rng) -> CutCall {
    let src = rng.below(1 << 40);
    let kind = rng.below(3);
    let call = Call {
        kind,
        stamp: rng.below(1 << 34),
        src,
        dst: if kind == 1 {
            src + GAP
        } else {
            rng.below(1 << 40)
        },
        count: rng.below(257),
    };
    let mut pieces = Vec::new();
    let mut left = call.count;
    while left != 0 {
        let width = if left >= 8 { 8 } else { 1 };
        pieces.push(piece(rng, width, 256));
        left -= width;
    }
    if pieces.is_empty() {
        pieces.push(piece(rng, 1, 256));
    }
    CutCall { call, pieces }
}

/// Value bytes below the limit, as many as the width.
fn piece(rng: &mut Rng, width: u64, limit: u64) -> Piece {
    let mut value = [0; 8];
    value[..width as usize].fill_with(|| rng.below(limit));
    Piece { width, value }
}
