//! The four makers. The original makes and clears its own table at every turn; the
//! proved code writes into a lent one. It is timed as it is, and with the lent table
//! cleared in the same turn. The other two tables are not among the published files:
//! there the Rust side is document 01's layer of the oracle, on the same lent table.

use super::{Report, SIZES, answered, race_two};
use crate::exported;
use crate::generate::records;
use crate::oracle::records::{ACCESS, OPERATION, REGISTER, access_of, operation_of};
use crate::oracle::{self, Answer};
use crate::rng::Rng;
use original::tables::residues::{Trace, numbers};
use original::tables::{copy, memw};
use std::cell::RefCell;
use std::hint::black_box;

type Maker = fn(&[u64], &mut [u64]) -> Answer;

/// A maker, with the numbers of a record and of a row.
struct Table {
    name: &'static str,
    ours: Maker,
    record: usize,
    columns: usize,
}

const COPY: Table = Table {
    name: "generate_copy_trace",
    ours: exported::generate_copy_trace,
    record: OPERATION,
    columns: 41,
};
const GENERAL: Table = Table {
    name: "generate_memw_trace",
    ours: exported::generate_memw_trace,
    record: ACCESS,
    columns: 49,
};
const ALIGNED: Table = Table {
    name: "generate_memw_aligned_trace",
    ours: exported::generate_memw_aligned_trace,
    record: ACCESS,
    columns: 29,
};
const REGISTERS: Table = Table {
    name: "generate_memw_register_trace",
    ours: exported::generate_memw_register_trace,
    record: REGISTER,
    columns: 10,
};

const LARGEST: usize = SIZES[2];

pub fn run(report: &mut Report) {
    let mut rng = Rng::new(1);
    if report.wants(COPY.name) {
        let ops = rng.many(LARGEST, records::operation).concat();
        let structs: Vec<_> = ops.chunks(OPERATION).map(operation_of).collect();
        let make = |n: usize| copy::generate_copy_trace(&structs[..n]);
        against_original(report, &COPY, &ops, make);
    }
    let accesses = rng.many(LARGEST, records::access).concat();
    if report.wants(GENERAL.name) {
        let structs: Vec<_> = accesses.chunks(ACCESS).map(access_of).collect();
        let make = |n: usize| memw::generate_memw_trace(&structs[..n]);
        against_original(report, &GENERAL, &accesses, make);
    }
    if report.wants(ALIGNED.name) {
        let layer = oracle::generate_memw_aligned_trace;
        against_layer(report, &ALIGNED, &accesses, layer);
    }
    if report.wants(REGISTERS.name) {
        let registers = rng.many(LARGEST, records::register).concat();
        let layer = oracle::generate_memw_register_trace;
        against_layer(report, &REGISTERS, &registers, layer);
    }
}

/// `make` is the original on the first n records.
fn against_original(
    report: &mut Report,
    table: &Table,
    list: &[u64],
    make: impl Fn(usize) -> Trace,
) {
    let Table { name, columns, .. } = table;
    let mut lent = vec![1; LARGEST * columns];
    let ours = |n: usize, lent: &mut [u64]| (table.ours)(&list[..n * table.record], lent);
    for clears in [false, true] {
        let times = SIZES.map(|n| {
            let lent = &mut lent[..n * columns];
            lent.fill(1);
            let mut answer = answered(0);
            let mut turn = || {
                if clears {
                    black_box(&mut *lent).fill(0);
                }
                answer = black_box(ours(n, lent));
            };
            let times = race_two(n, &mut turn, &mut || drop(black_box(make(n))));
            let same = answer == answered(n) && lent == numbers(&make(n));
            assert!(same, "{name}: results differ");
            times
        });
        let how = if clears { "cleared" } else { "not cleared" };
        let what = format!("{name}, table {how}");
        report.sizes(&what, "original, clears its own", times);
    }
}

/// Both sides on the same lent table, not cleared.
fn against_layer(report: &mut Report, table: &Table, list: &[u64], layer: Maker) {
    let Table { name, columns, .. } = table;
    let lent = RefCell::new(vec![1; LARGEST * columns]);
    let times = SIZES.map(|n| {
        let list = &list[..n * table.record];
        let turn = |side: Maker| black_box(side(list, &mut lent.borrow_mut()[..n * columns]));
        let times = race_two(n, &mut || _ = turn(table.ours), &mut || _ = turn(layer));
        // Over different junk, so that a number that is not written differs.
        let [ours, rust] = [(1, table.ours), (2, layer)].map(|(junk, side)| {
            lent.borrow_mut().fill(junk);
            let answer = turn(side);
            (answer, lent.borrow()[..n * columns].to_vec())
        });
        assert!(
            ours == rust && ours.0 == answered(n),
            "{name}: results differ"
        );
        times
    });
    let what = format!("{name}, table not cleared");
    report.sizes(&what, "document 01's layer", times);
}
