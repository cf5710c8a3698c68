//! Row lists: sound exactly if the chain check passes them; rows alone; tables of calls.

use super::{Report, Tally};
use crate::bench::one_pass;
use crate::generate::{Generator, calls, numbers};
use crate::oracle::{self, Answer, COPY_COLUMNS};
use crate::protocol::{Argument, Question};
use crate::rng::Rng;
use crate::sound::{self, Call, CutCall};

pub fn run(report: &mut Report, seed: u64, count: u64) {
    report.add(passes_exactly_if_sound(seed, count));
    report.add(row_check_passes_exactly_if_sound(seed, count));
    report.add(row_check_is_the_chains(seed, count / 4));
    report.add(rows_are_the_originals(seed, count / 4));
    report.add(expanded_calls_come_back(seed, count / 20));
    report.add(one_pass_agrees(seed, count));
    report.add(one_pass_row_agrees(seed, count));
}

/// A cut call's operation records.
fn records_of(cut: &CutCall) -> Vec<u64> {
    let mut rest = cut.call;
    let mut records = Vec::new();
    for (place, piece) in cut.pieces.iter().enumerate() {
        let flags = [place == 0, place + 1 == cut.pieces.len()].map(u64::from);
        records.extend([rest.stamp, rest.src, rest.dst, rest.count, piece.width]);
        records.extend(flags);
        records.push(rest.kind);
        records.extend(piece.value);
        rest.src = rest.src.wrapping_add(piece.width);
        rest.dst = rest.dst.wrapping_add(piece.width);
        rest.count = rest.count.wrapping_sub(piece.width);
    }
    records
}

fn numbers_of(call: &Call) -> [u64; 5] {
    [call.kind, call.stamp, call.src, call.dst, call.count]
}

/// Whether read-back of a list gives these records and calls.
fn reads_back(gap: u64, rows: &[u64], records: &[u64], calls: &[u64]) -> bool {
    let (mut ops, mut read) = (vec![0; records.len()], vec![0; calls.len()]);
    let mut counts = [0; 2];
    let answer = oracle::read_back(gap, rows, &mut ops, &mut read, &mut counts);
    let expected = [records.len() / 16, calls.len() / 5].map(|length| length as u64);
    answer.number == 0 && ops == records && read == calls && counts == expected
}

fn passes_exactly_if_sound(seed: u64, count: u64) -> Tally {
    let mut tally = Tally::new("chain check passes exactly the sound lists, read-back gives them");
    let mut generator = Generator::new("chain_check", seed).expect("a kind");
    for _ in 0..count {
        let question = generator.question();
        let (gap, rows) = gap_and_rows(&question);
        let answer = oracle::chain_check(gap, rows);
        let holds = match sound::sound_calls(gap, rows) {
            None => answer.number != 0,
            Some(cuts) => {
                let records: Vec<u64> = cuts.iter().flat_map(records_of).collect();
                let calls: Vec<u64> = cuts.iter().flat_map(|cut| numbers_of(&cut.call)).collect();
                answer.number == 0 && reads_back(gap, rows, &records, &calls)
            }
        };
        tally.case(holds, || question.line());
        saw_answer(&mut tally, answer);
    }
    tally
}

fn saw_answer(tally: &mut Tally, answer: Answer) {
    match answer.number {
        16 => tally.saw(format!("16, residue {:02}", answer.value)),
        number => tally.saw(format!("{number:02}")),
    }
}

/// What the chain check and the row check take.
fn gap_and_rows(question: &Question) -> (u64, &[u64]) {
    match &question.arguments[..] {
        [Argument::Number(gap), Argument::List(rows)] => (*gap, rows),
        _ => unreachable!("a check takes a gap and rows"),
    }
}

fn row_check_passes_exactly_if_sound(seed: u64, count: u64) -> Tally {
    let mut tally = Tally::new("row check passes exactly the sound rows");
    let mut generator = Generator::new("row_check", seed).expect("a kind");
    for _ in 0..count {
        let question = generator.question();
        let (gap, row) = gap_and_rows(&question);
        let answer = oracle::row_check(gap, row);
        let holds = (answer.number == 0) == sound::is_sound_row(gap, row);
        tally.case(holds, || question.line());
        saw_answer(&mut tally, answer);
    }
    tally
}

/// Where the chain check stops by 14, 15 or 16, that row alone is refused so, and rows
/// that it got past pass alone.
fn row_check_is_the_chains(seed: u64, count: u64) -> Tally {
    let mut tally = Tally::new("row check of a list's rows says what the chain check says");
    let mut generator = Generator::new("chain_check", seed).expect("a kind");
    for _ in 0..count {
        let question = generator.question();
        let (gap, rows) = gap_and_rows(&question);
        let Answer {
            number,
            place,
            value,
        } = oracle::chain_check(gap, rows);
        let alone = |row| oracle::row_check(gap, row);
        let alone: Vec<Answer> = rows.chunks(COPY_COLUMNS).map(alone).collect();
        let passed = |rows: &[Answer]| rows.iter().all(|answer| answer.number == 0);
        let place = place as usize;
        let holds = match number {
            7 | 13 => continue,
            14..=16 => {
                let stopped = alone[place];
                passed(&alone[..place]) && (stopped.number, stopped.value) == (number, value)
            }
            17 => passed(&alone[..=place]),
            _ => passed(&alone),
        };
        tally.case(holds, || question.line());
    }
    tally
}

/// The whole-number rows of a cut call are the rows that the original makes.
fn rows_are_the_originals(seed: u64, count: u64) -> Tally {
    let mut tally = Tally::new("rows over whole numbers are the original's table rows");
    let mut rng = Rng::new(seed);
    for _ in 0..count {
        let gap = numbers::gap(&mut rng);
        let call = calls::call(&mut rng, gap);
        let cut = calls::cut(&mut rng, call);
        let rows = sound::rows_of(&cut);
        let mut table = vec![0; 41 * 64];
        oracle::generate_copy_trace(&records_of(&cut), &mut table);
        tally.case(table[..rows.len()] == rows, || format!("{cut:?}"));
    }
    tally
}

/// Demand 3's last sentence: expanded calls, refused ones left out, make a table that
/// passes and reads back as they went in.
fn expanded_calls_come_back(seed: u64, count: u64) -> Tally {
    let mut tally = Tally::new("tables of expanded calls pass and read back");
    let mut generator = Generator::new("collect_copy_ops", seed).expect("a kind");
    let mut rng = Rng::new(seed);
    for _ in 0..count {
        let gap = numbers::gap(&mut rng);
        let (mut records, mut calls) = (Vec::new(), Vec::new());
        for _ in 0..rng.below(6) {
            let question = under_gap(&generator.question(), gap);
            let reply = question.reply();
            tally.saw(format!("call {:02}", reply.answer.number));
            if reply.answer.number == 0 {
                records.extend(&reply.lent[2][..16 * reply.answer.value as usize]);
                calls.extend(question.arguments[..5].iter().map(number_of));
            }
        }
        let mut table = vec![0; 41 * 1024];
        let rows = oracle::generate_copy_trace(&records, &mut table).value as usize;
        let rows = &table[..41 * rows];
        let holds = oracle::chain_check(gap, rows).number == 0
            && reads_back(gap, rows, &records, &calls)
            && sound::sound_calls(gap, rows).is_some();
        tally.case(holds, || format!("gap {gap}, calls {calls:?}"));
    }
    tally
}

/// The check that the benchmark measures against.
fn one_pass_agrees(seed: u64, count: u64) -> Tally {
    let mut tally = Tally::new("the one-pass check and read-back answer as the oracle");
    let mut generator = Generator::new("read_back", seed).expect("a kind");
    for _ in 0..count {
        let (question, reply) = generator.asked();
        let [Argument::Number(gap), lists @ ..] = &question.arguments[..] else {
            unreachable!("read_back takes a gap and lists")
        };
        let [rows, ops, calls, counts] = [0, 1, 2, 3].map(|i| list_of(&lists[i]));
        let (mut ops, mut calls) = (ops.to_vec(), calls.to_vec());
        let mut counts = [counts[0], counts[1]];
        let answer = one_pass::read_back(*gap, rows, &mut ops, &mut calls, &mut counts);
        let read = answer == reply.answer && [ops, calls, counts.to_vec()] == reply.lent[..];
        let checked = one_pass::chain_check(*gap, rows) == oracle::chain_check(*gap, rows);
        tally.case(read && checked, || question.line());
    }
    tally
}

fn one_pass_row_agrees(seed: u64, count: u64) -> Tally {
    let mut tally = Tally::new("the one-pass row check answers as the oracle");
    let mut generator = Generator::new("row_check", seed).expect("a kind");
    for _ in 0..count {
        let (question, reply) = generator.asked();
        let (gap, row) = gap_and_rows(&question);
        let holds = one_pass::row_check(gap, row) == reply.answer;
        tally.case(holds, || question.line());
    }
    tally
}

fn list_of(argument: &Argument) -> &[u64] {
    match argument {
        Argument::List(list) => list,
        Argument::Number(_) => unreachable!("the last four parameters are lists"),
    }
}

fn number_of(argument: &Argument) -> u64 {
    match argument {
        Argument::Number(number) => *number,
        Argument::List(_) => unreachable!("the first five parameters are numbers"),
    }
}

/// The same call under another gap; a Set's destination follows.
fn under_gap(question: &Question, gap: u64) -> Question {
    let mut question = question.clone();
    let [kind, src, dst, before] = [0, 2, 3, 5].map(|i| number_of(&question.arguments[i]));
    if kind == 1 && src.checked_add(before) == Some(dst) {
        question.arguments[3] = src.wrapping_add(gap).into();
    }
    question.arguments[5] = gap.into();
    question
}
