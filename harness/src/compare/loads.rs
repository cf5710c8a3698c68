//! Loads in turn: every call of so many loads, as the proved code makes them, is put to the
//! proved expansion over one window of 1,024 cells, and none may be refused. As many of the
//! first calls as a table holds go on to the maker, the chain check and read-back, which
//! must give them back.

use crate::exported;
use crate::oracle::records::{ACCESS, HANDED, OPERATION};
use crate::oracle::{COPY_COLUMNS, LIST_LIMIT};
use crate::rng::Rng;

const LOADS: usize = 100;
const GAP: u64 = 8;
const CELLS: usize = 1024;
/// The most rows of a call: 31 bytes have three of width 8 and seven of width 1.
const ROWS: usize = 10;

/// The functions that this takes.
const FUNCTIONS: [&str; 5] = [
    "generate_load",
    "collect_copy_ops",
    "generate_copy_trace",
    "chain_check",
    "read_back",
];

/// What was seen, or what was refused.
pub fn run(seed: u64) -> Result<String, String> {
    if let Some(name) = FUNCTIONS.iter().find(|name| !exported::has(name)) {
        return Err(format!("loads in turn: no {name}"));
    }
    let mut rng = Rng::new(seed);
    let (mut records, mut back) = (0, 0);
    for _ in 0..LOADS {
        let s = rng.number();
        let (more, first) = in_turn(&mut rng, s).map_err(|why| format!("load of {s}: {why}"))?;
        records += more;
        back += first;
    }
    let calls = LOADS * LIST_LIMIT;
    Ok(format!(
        "    loads of 65,536 in turn: {LOADS}; calls accepted: {calls}, with {records} records; \
         calls read back: {back}\n"
    ))
}

/// All calls of a load, each over what the call before left: how many records there are, and
/// how many calls came back of a table.
fn in_turn(rng: &mut Rng, s: u64) -> Result<(usize, usize), String> {
    let mut load = vec![0; HANDED * LIST_LIMIT];
    let answer = exported::generate_load(s, LIST_LIMIT as u64, &mut load);
    if (answer.number, answer.value) != (0, LIST_LIMIT as u64) {
        return Err(format!("{answer:?}"));
    }
    let mut bytes: Vec<u8> = rng.many(CELLS, |rng| rng.number() as u8);
    let mut stamps = rng.many(CELLS, Rng::number);
    let mut ops = [0; OPERATION * ROWS];
    let mut accesses = [0; 2 * ACCESS * ROWS];
    let (mut all, mut first, mut tabled) = (0, 0, Vec::new());
    for (place, call) in load.chunks_exact(HANDED).enumerate() {
        let mut counts = [0; 2];
        #[rustfmt::skip]
        let answer = exported::collect_copy_ops(
            call[0], call[1], call[2], call[3], call[4], GAP,
            &mut bytes, &mut stamps, &mut ops, &mut accesses, &mut counts,
        );
        if answer.number != 0 {
            return Err(format!("call {place}: {answer:?}"));
        }
        let records = counts[0] as usize;
        all += records;
        if first == place && all <= LIST_LIMIT {
            first += 1;
            tabled.extend(&ops[..OPERATION * records]);
        }
    }
    came_back(&tabled, &load[..HANDED * first]).map(|()| (all, first))
}

/// The table of these records passes, and gives back the records and these calls.
fn came_back(records: &[u64], calls: &[u64]) -> Result<(), String> {
    let mut table = vec![0; COPY_COLUMNS * LIST_LIMIT];
    let made = exported::generate_copy_trace(records, &mut table);
    let rows = &table[..COPY_COLUMNS * made.value as usize];
    let passed = exported::chain_check(GAP, rows);
    let mut ops = vec![0; records.len()];
    let mut back = vec![0; calls.len()];
    let mut counts = [0; 2];
    let read = exported::read_back(GAP, rows, &mut ops, &mut back, &mut counts);
    if [made.number, passed.number, read.number] != [0; 3] {
        return Err(format!("{made:?}, {passed:?}, {read:?}"));
    }
    match ops == records && back == calls {
        true => Ok(()),
        false => Err("not read back".into()),
    }
}
