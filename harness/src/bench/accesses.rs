//! Register step, expansion and routing against the original, which works on its own
//! structs and returns lists that it allocates; the proved code writes the same numbers
//! into lent buffers, not cleared.

use super::{Report, SIZES, Times, answered, race_two};
use crate::exported;
use crate::generate::lookups::{self, LOOKUPS, PAIR};
use crate::generate::records;
use crate::oracle::records::{
    ACCESS, OPERATION, REGISTER, access_of, access_record, operation_record, register_record,
};
use crate::oracle::{self, Answer, halfword_pair, row_widths};
use crate::rng::Rng;
use original::tables::copy::{CopyOperation, Functionality};
use original::tables::memw::MemwOperation;
use original::tables::trace_builder::{RegisterFile, Window, new_register_state, route};
use std::hint::black_box;

const KINDS: [(&str, Functionality); 3] = [
    ("Copy", Functionality::Copy),
    ("Set", Functionality::Set),
    ("Write", Functionality::Write),
];

/// Steps in a turn.
const STEPS: u64 = 1024;

/// Bytes of a page.
const PAGE: usize = 4096;

/// Begins at a multiple of 1,024 bytes, so that what has no more bytes lies in one page:
/// a store over a page's edge costs several nanoseconds, and where the stack begins
/// changes from run to run.
#[repr(align(1024))]
struct InOnePage<T>(T);

/// Steps of one kind in turn over one state. A Write of one byte leaves x10 at 1, so
/// that the next one is accepted; its destination is the index.
pub fn step(report: &mut Report) {
    if !report.wants("collect_copy_register_ops") {
        return;
    }
    for (kind, (name, functionality)) in KINDS.into_iter().enumerate() {
        let mut start = new_register_state(0, 1 << 30);
        start.values[10] = 1;
        let mut steps = Steps {
            kind: kind as u64,
            functionality,
            state: InOnePage(oracle::flat_registers(&start)),
            records: InOnePage([0; 4 * ACCESS]),
        };
        let mut file = InOnePage(RegisterFile::new(&start));
        let kept = steps.put_aside(&mut file.0);
        let times = steps.race(&mut file.0);
        drop(kept);
        steps.compare(&mut file.0);
        let what = format!("collect_copy_register_ops, {name}");
        report.call(&what, "original", times);
    }
}

/// Our side, and what both sides do.
struct Steps {
    kind: u64,
    functionality: Functionality,
    state: InOnePage<[u64; 68]>,
    records: InOnePage<[u64; 4 * ACCESS]>,
}

impl Steps {
    /// Source, destination and count of a step. An index that begins anew with each turn
    /// stays far below 2^32.
    fn call(&self, step: u64) -> [u64; 3] {
        [64, if self.kind == 2 { step } else { 4096 }, 1]
    }

    fn ours(&mut self, step: u64) -> Answer {
        let [src, dst, count] = self.call(step);
        let (state, records) = (&mut self.state.0, &mut self.records.0);
        exported::collect_copy_register_ops(self.kind, step, src, dst, count, state, records)
    }

    /// The allocator gives the original one block at every step. Blocks that lie over a
    /// page's edge are kept while the clock runs, so that it gives another.
    fn put_aside(&self, file: &mut RegisterFile) -> Vec<Vec<MemwOperation>> {
        let mut kept = Vec::new();
        loop {
            file.set_index(0);
            let made = file.step(self.functionality, 0, self.call(0));
            let made = made.expect("sound");
            let start = made.as_ptr() as usize;
            let end = start + size_of::<MemwOperation>() * made.capacity();
            if start / PAGE == (end - 1) / PAGE {
                return kept;
            }
            kept.push(made);
        }
    }

    fn race(&mut self, file: &mut RegisterFile) -> Times {
        let functionality = self.functionality;
        let calls: Vec<[u64; 3]> = (0..STEPS).map(|step| self.call(step)).collect();
        let mut ours = || {
            self.state.0[64] = 0;
            for step in 0..STEPS {
                black_box(self.ours(step));
            }
        };
        let mut rust = || {
            file.set_index(0);
            for (step, call) in (0..STEPS).zip(&calls) {
                black_box(file.step(functionality, step, *call).expect("sound"));
            }
        };
        ours();
        rust();
        race_two(STEPS as usize, &mut ours, &mut rust)
    }

    /// One more turn on both sides: every step's answer, records and state.
    fn compare(&mut self, file: &mut RegisterFile) {
        self.state.0[64] = 0;
        file.set_index(0);
        for step in 0..STEPS {
            let answer = self.ours(step);
            let made = file.step(self.functionality, step, self.call(step));
            let made = made.expect("sound");
            let mut flat: Vec<u64> = made.iter().flat_map(access_record).collect();
            flat.resize(4 * ACCESS, 0);
            assert!(
                answer == answered(made.len())
                    && self.records.0[..] == flat
                    && self.state.0 == oracle::flat_registers(&file.registers()),
                "step {step}: results differ"
            );
        }
    }
}

/// One call that moves as many bytes as asked, in a window of 65,536 cells. The window
/// goes on from turn to turn on both sides, and is the same after each but the first. The
/// last two calls come to every edge in the middle of a row.
pub fn expansion(report: &mut Report) {
    if !report.wants("collect_copy_ops") {
        return;
    }
    let calls = [
        ("Copy", 0, [0, 0]),
        ("Set", 1, [0, GAP]),
        ("Write", 2, [0, 0]),
        ("Copy from 3 to 3", 0, [3, 3]),
        ("Set from 3 to 11", 1, [3, 3 + GAP]),
    ];
    for (name, kind, places) in calls {
        let times = SIZES.map(|count| expand(kind, places, count as u64));
        report.sizes(
            &format!("collect_copy_ops, {name}, bytes"),
            "original",
            times,
        );
    }
}

/// What lies in the buffers before the first turn.
const JUNK: u64 = 1;
/// The window of an expansion, and its gap.
const CELLS: usize = 1 << 16;
const GAP: u64 = 8;

fn expand(kind: usize, [src, dst]: [u64; 2], count: u64) -> Times {
    // So much less that source and destination end in the window.
    let count = count - src.max(dst).next_multiple_of(8);
    let rows = row_widths(kind as u64, src, dst, count).len();
    let mut lent = Expanded::new(rows);
    let mut window = Window::new(&lent.bytes, &lent.stamps);
    let mut made = None;
    let mut ours = || lent.turn(kind as u64, [src, dst, count]);
    let mut rust = || made = Some(window.expand(KINDS[kind].1, 1000, [src, dst, count]));
    ours();
    rust();
    let times = race_two(count as usize, &mut ours, &mut rust);
    let (accesses, ops) = made.expect("a turn was taken");
    assert!(
        lent.is_as(&window, &ops, &accesses),
        "expansion: results differ"
    );
    times
}

/// What our side is lent, and its answer.
struct Expanded {
    bytes: Vec<u8>,
    stamps: Vec<u64>,
    ops: Vec<u64>,
    accesses: Vec<u64>,
    counts: [u64; 2],
    answer: Answer,
}

impl Expanded {
    fn new(rows: usize) -> Self {
        let mut rng = Rng::new(1);
        Self {
            bytes: rng.many(CELLS, |rng| rng.below(256) as u8),
            stamps: rng.many(CELLS, |rng| rng.below(1000)),
            ops: vec![JUNK; rows * OPERATION],
            accesses: vec![JUNK; 2 * rows * ACCESS],
            counts: [JUNK; 2],
            answer: answered(0),
        }
    }

    #[rustfmt::skip]
    fn turn(&mut self, kind: u64, [src, dst, count]: [u64; 3]) {
        let Self { bytes, stamps, ops, accesses, counts, .. } = self;
        self.answer = black_box(exported::collect_copy_ops(
            kind, 1000, src, dst, count, GAP, bytes, stamps, ops, accesses, counts,
        ));
    }

    /// Whether all of it is what the original has.
    fn is_as(&self, window: &Window, ops: &[CopyOperation], accesses: &[MemwOperation]) -> bool {
        let flat_ops: Vec<u64> = ops.iter().flat_map(operation_record).collect();
        let flat_accesses: Vec<u64> = accesses.iter().flat_map(access_record).collect();
        let mut cells = self.bytes.iter().zip(&self.stamps).enumerate();
        self.answer == answered(ops.len())
            && self.counts == [ops.len(), accesses.len()].map(|length| length as u64)
            && is_front(&self.ops, &flat_ops)
            && is_front(&self.accesses, &flat_accesses)
            && cells.all(|(address, (byte, stamp))| window.cell(address) == (*byte, *stamp))
    }
}

/// Whether a buffer begins with the result and has junk after it.
fn is_front(buffer: &[u64], result: &[u64]) -> bool {
    let (front, rest) = buffer.split_at(result.len());
    front == result && rest.iter().all(|&number| number == JUNK)
}

/// Access records near the edges of the three routes.
pub fn routing(report: &mut Report) {
    if !report.wants("route_accesses") {
        return;
    }
    let mut rng = Rng::new(1);
    let list = rng.many(SIZES[2], records::routable).concat();
    let structs: Vec<MemwOperation> = list.chunks(ACCESS).map(access_of).collect();
    let mut lists = [REGISTER, ACCESS, ACCESS].map(|width| vec![JUNK; SIZES[2] * width]);
    let mut counts = [0; 3];
    let times = SIZES.map(|n| {
        lists.iter_mut().for_each(|list| list.fill(JUNK));
        let [register, aligned, general] = &mut lists;
        let list = &list[..n * ACCESS];
        let mut answer = answered(0);
        let mut ours = || {
            let counts = &mut counts;
            let made = exported::route_accesses(list, register, aligned, general, counts);
            answer = black_box(made);
        };
        let mut rust = || drop(black_box(route(structs[..n].iter().cloned())));
        let times = race_two(n, &mut ours, &mut rust);
        assert!(
            answer == answered(n) && is_routed(&structs[..n], &lists, counts),
            "routing: results differ"
        );
        times
    });
    let [register, aligned, general] = counts;
    let what =
        format!("route_accesses ({register} register, {aligned} aligned, {general} general)");
    report.sizes(&what, "original", times);
}

/// Register accesses at every difference among others. The Rust side routes, as the original
/// does, and takes the pairs off the register rows in a loop.
pub fn lookups(report: &mut Report) {
    if !report.wants(LOOKUPS) {
        return;
    }
    let mut rng = Rng::new(1);
    let list = rng.many(SIZES[2], lookups::access).concat();
    let structs: Vec<MemwOperation> = list.chunks(ACCESS).map(access_of).collect();
    let mut written = 0;
    let times = SIZES.map(|n| {
        let list = &list[..n * ACCESS];
        let mut lent = vec![JUNK; n * PAIR];
        let mut answer = answered(0);
        let mut pairs = Vec::new();
        let mut ours = || answer = black_box(exported::register_lookups(list, &mut lent));
        let mut rust = || {
            let rows = route(structs[..n].iter().cloned()).register;
            pairs.clear();
            for row in &rows {
                pairs.extend(halfword_pair(row));
            }
        };
        let times = race_two(n, &mut ours, &mut rust);
        written = pairs.len() / PAIR;
        assert!(
            answer == answered(written) && is_front(&lent, &pairs),
            "lookups: results differ"
        );
        times
    });
    let what = format!("{LOOKUPS} ({written} pairs)");
    report.sizes(&what, "original's routing, and a loop for the pairs", times);
}

/// Whether the lists begin with what the original makes, and have junk after it.
fn is_routed(accesses: &[MemwOperation], lists: &[Vec<u64>; 3], counts: [u64; 3]) -> bool {
    let routed = route(accesses.iter().cloned());
    let flat: [Vec<u64>; 3] = [
        routed.register.iter().flat_map(register_record).collect(),
        routed.aligned.iter().flat_map(access_record).collect(),
        routed.general.iter().flat_map(access_record).collect(),
    ];
    let lengths = [
        routed.register.len(),
        routed.aligned.len(),
        routed.general.len(),
    ];
    let mut pairs = lists.iter().zip(&flat);
    counts == lengths.map(|length| length as u64) && pairs.all(|(list, flat)| is_front(list, flat))
}
