//! Every exported function: what a refusal leaves, what the text protocol carries,
//! and where the original can be held against document 01's words.

use super::{Report, Tally};
use crate::generate::lookups::{LOOKUPS, PAIR};
use crate::generate::{Generator, carries, records};
use crate::oracle::{self, Answer, records::ACCESS};
use crate::protocol::{Argument, FUNCTIONS, Question, Reply};
use crate::rng::Rng;

pub fn run(report: &mut Report, seed: u64, count: u64) {
    for (name, ..) in FUNCTIONS {
        report.add(refusals_write_nothing(name, seed, count / 20));
    }
    report.add(routes_by_words(seed, count));
    report.add(lookups_by_words(seed, count));
    report.add(carries_by_words(seed));
    report.add(made_rows_have_zero_residues(seed, count / 20));
    report.add(moved_bytes(seed, count / 20));
}

fn refusals_write_nothing(name: &'static str, seed: u64, count: u64) -> Tally {
    let mut tally = Tally::new(name);
    let mut generator = Generator::new(name, seed).expect("a kind");
    for _ in 0..count {
        let question = generator.question();
        let Reply { answer, lent } = question.reply();
        let kept = answer.number == 0 || lent.iter().eq(question.lists(true));
        let place = answer.number != 0 || answer.place == 0;
        let value = matches!(answer.number, 0 | 16) || answer.value == 0;
        let carried = Question::parse(&question.line()).as_ref() == Ok(&question);
        tally.case(kept && place && value && carried, || question.line());
        tally.saw(format!("{:02}", answer.number));
    }
    tally
}

/// Document 01's words for a route against the original's routing.
fn routes_by_words(seed: u64, count: u64) -> Tally {
    let mut tally = Tally::new("routes by document 01's words are the original's");
    let mut rng = Rng::new(seed);
    for _ in 0..count {
        let record = records::routable(&mut rng);
        let route = oracle::route_by_words(&record);
        let (mut register, mut aligned, mut general) = ([0; 8], [0; 29], [0; 29]);
        let mut counts = [0; 3];
        oracle::route_accesses(
            &record,
            &mut register,
            &mut aligned,
            &mut general,
            &mut counts,
        );
        let mut expected = [0; 3];
        expected[route as usize] = 1;
        tally.case(counts == expected, || format!("{record:?}"));
        tally.saw(["register", "aligned", "general"][route as usize]);
    }
    tally
}

/// Document 02's words for the lookups: a pair rebuilds the difference less one of its
/// record, and what is refused is what routing refuses, if its lists are long enough.
fn lookups_by_words(seed: u64, count: u64) -> Tally {
    let mut tally = Tally::new("lookups by document 02's words are the original's");
    let mut generator = Generator::new(LOOKUPS, seed).expect("a kind");
    for _ in 0..count {
        let question = generator.question();
        let Reply { answer, lent } = question.reply();
        let accesses = question.lists(false).next().expect("the access list");
        let holds = match answer.number {
            0 => rebuilds(accesses, &lent[0][..PAIR * answer.value as usize]),
            _ => is_refused_alike(accesses, answer),
        };
        tally.case(holds, || question.line());
        tally.saw(format!("{:02}", answer.number));
    }
    tally
}

/// Whether these are the pairs of the records that go to the register table.
fn rebuilds(accesses: &[u64], pairs: &[u64]) -> bool {
    let near = |record: &&[u64]| oracle::route_by_words(record) == 0;
    let wanted = accesses
        .chunks(ACCESS)
        .filter(near)
        .map(oracle::difference_by_words);
    let bytes = pairs.iter().all(|&byte| byte < 256);
    bytes && wanted.eq(pairs.chunks(PAIR).map(|pair| pair[0] + 256 * pair[1]))
}

/// Whether routing refuses the list in the same place, or only this buffer was too short.
fn is_refused_alike(accesses: &[u64], answer: Answer) -> bool {
    let mut lists = [(); 3].map(|()| vec![0; accesses.len()]);
    let [register, aligned, general] = &mut lists;
    let routed = oracle::route_accesses(accesses, register, aligned, general, &mut [0; 3]);
    match answer.number {
        9 => routed.number == 0,
        _ => routed == answer,
    }
}

/// Document 01's words for CARRY against the original's rows, where CARRY changes.
fn carries_by_words(seed: u64) -> Tally {
    let mut tally = Tally::new("CARRY by document 01's words is the original's");
    for question in carries::questions(seed) {
        let Reply { answer, lent } = question.reply();
        if answer.number != 0 {
            continue;
        }
        let accesses = question.lists(false).flat_map(|list| list.chunks(ACCESS));
        for (access, row) in accesses.zip(lent[0].chunks(49)) {
            let holds = row[24..31] == oracle::carries_by_words(access[1]);
            tally.case(holds, || format!("{access:?}"));
        }
    }
    tally
}

/// 'Every made row of these three tables zeroes its residues.'
fn made_rows_have_zero_residues(seed: u64, count: u64) -> Tally {
    let mut tally = Tally::new("made access rows have zero residues");
    let mut rng = Rng::new(seed);
    for _ in 0..count {
        let access = records::access(&mut rng);
        let register = records::register(&mut rng);
        let mut table = [0; 4 * 49];
        oracle::generate_memw_trace(&access, &mut table);
        let general = (0..15).all(|i| oracle::memw_residue(&table[..49], i).value == 0);
        oracle::generate_memw_aligned_trace(&access, &mut table);
        let aligned = (0..8).all(|i| oracle::memw_aligned_residue(&table[..29], i).value == 0);
        oracle::generate_memw_register_trace(&register, &mut table);
        let registers = (0..3).all(|i| oracle::memw_register_residue(&table[..10], i).value == 0);
        tally.case(general && aligned && registers, || {
            format!("{access:?} {register:?}")
        });
    }
    tally
}

/// The moved byte of an accepted call at x, j its place in its row: for Set with x at
/// least gap and j below gap the one moved at x - gap, else the byte at src + x before.
fn moved_bytes(seed: u64, count: u64) -> Tally {
    let mut tally = Tally::new("moved bytes are those of the plain rule");
    let mut generator = Generator::new("collect_copy_ops", seed).expect("a kind");
    for _ in 0..count {
        let question = generator.question();
        let reply = question.reply();
        if reply.answer.number == 0 {
            let holds = moves_by_rule(&question, &reply);
            tally.case(holds, || question.line());
        }
    }
    tally
}

fn moves_by_rule(question: &Question, reply: &Reply) -> bool {
    let number = |i: usize| match &question.arguments[i] {
        Argument::Number(number) => *number as usize,
        Argument::List(_) => unreachable!("the first six parameters are numbers"),
    };
    let [kind, src, count, gap] = [0, 2, 4, 5].map(number);
    let Argument::List(bytes) = &question.arguments[6] else {
        return false;
    };
    let mut moved: Vec<u64> = Vec::new();
    for record in reply.lent[2][..16 * reply.answer.value as usize].chunks(16) {
        let width = if count == 0 { 0 } else { record[4] as usize };
        for place in 0..width {
            let x = moved.len();
            let again = kind == 1 && x >= gap && place < gap;
            let byte = if again {
                moved[x - gap]
            } else {
                bytes[src + x]
            };
            if byte != record[8 + place] {
                return false;
            }
            moved.push(byte);
        }
    }
    moved.len() == count
}
