//! Document 01's marked examples, asked of the oracle.

use super::{Report, Tally};
use crate::oracle::{self, PRIME};

pub fn run(report: &mut Report) {
    let mut tally = Tally::new("document 01's examples");
    field(&mut tally);
    row_counts(&mut tally);
    routes(&mut tally);
    carries(&mut tally);
    rows(&mut tally);
    program(&mut tally);
    report.add(tally);
}

fn expect<T: PartialEq + std::fmt::Debug>(tally: &mut Tally, got: T, expected: T) {
    tally.case(got == expected, || {
        format!("got {got:?}, expected {expected:?}")
    });
}

fn field(tally: &mut Tally) {
    expect(tally, oracle::field_mul(PRIME - 1, PRIME - 1).value, 1);
    expect(
        tally,
        oracle::field_mul(1 << 32, 1 << 32).value,
        4_294_967_295,
    );
}

fn row_counts(tally: &mut Tally) {
    let mut table = vec![0; 8 * 41];
    expect(tally, oracle::generate_copy_trace(&[], &mut table).value, 4);
    expect(
        tally,
        oracle::generate_copy_trace(&[0; 5 * 16], &mut table).value,
        8,
    );
}

fn routes(tally: &mut Tally) {
    for (timestamp, old, route) in [
        (65_537, 1, 0),
        (65_538, 1, 1),
        (7, 7, 1),
        (1 << 32, (1 << 32) - 1, 1),
    ] {
        let answer = oracle::push_reg_access(20, 0, 0, 0, 0, timestamp, old, 0, &mut [0; 29]);
        expect(tally, (answer.number, answer.value), (0, route));
    }
}

fn carries(tally: &mut Tally) {
    let cases = [(8, [0; 7]), (7, [0, 0, 0, 0, 0, 0, 1]), (1, [1; 7])];
    for (below, carry) in cases {
        let mut record = [0; 29];
        record[1] = (1 << 32) - below;
        record[11] = 8;
        let mut table = [0; 4 * 49];
        oracle::generate_memw_trace(&record, &mut table);
        expect(tally, &table[24..31], &carry[..]);
    }
}

/// The row of a Copy record with FIRST, and its first residue that is not 0.
fn first_residue(src: u64, count: u64, width: u64, end: u64) -> Option<(u64, u64)> {
    let mut table = [0; 4 * 41];
    let mut record = [0; 16];
    record[1] = src;
    record[3..7].copy_from_slice(&[count, width, 1, end]);
    oracle::generate_copy_trace(&record, &mut table);
    let residues = (0..40).map(|i| (i, oracle::copy_residue(8, &table[..41], i).value));
    residues.into_iter().find(|(_, residue)| *residue != 0)
}

fn rows(tally: &mut Tally) {
    let top = |below: u64| 0u64.wrapping_sub(below);
    expect(tally, first_residue(top(9), 8, 8, 1), None);
    expect(tally, first_residue(top(8), 8, 8, 1), Some((37, 1)));
    expect(tally, first_residue(0, 0, 8, 1), None);
    expect(tally, first_residue(0, 0, 8, 0), Some((34, 1)));
    expect(tally, first_residue(0, 4, 8, 1), Some((30, 4)));
    let mut dead = [0; 41];
    for (column, number) in [(22, 8), (10, 5), (12, 13), (18, 8)] {
        dead[column] = number;
    }
    expect(tally, oracle::chain_check(8, &dead).number, 0);
}

fn program(tally: &mut Tally) {
    let run = |input: &str| String::from_utf8(oracle::callcheck(input.as_bytes())).unwrap();
    let rows = "row\t0\t4\t0\t16\t9\t8\t1\t0\tcopy\nrow\t1\t4\t8\t24\t1\t1\t0\t1\tcopy\n";
    let expected = format!("{rows}passed\t4\n");
    expect(tally, run("gap\t8\ncopy\t4\t0\t16\t9\n"), expected);
    expect(tally, run(""), "refused\t10\t1\n".into());
    expect(tally, run("gap\t8"), "passed\t4\n".into());
    expect(tally, run("gap\t4294967296\n"), "refused\t7\t1\n".into());
    expect(tally, run("gap\t8\n\n"), "refused\t10\t2\n".into());
}
