//! One call on its way: expanded over a window, made into table rows, checked, read back;
//! then the same rows with one number changed.

#[repr(C)]
#[derive(Clone, Copy)]
struct Answer {
    number: u64,
    place: u64,
    value: u64,
}

// As the archive has them: a slice is a pointer and a length, an array a pointer.
unsafe extern "C" {
    fn collect_copy_ops(
        kind: u64,
        timestamp: u64,
        src: u64,
        dst: u64,
        count: u64,
        gap: u64,
        bytes: *mut u8,
        bytes_length: usize,
        stamps: *mut u64,
        stamps_length: usize,
        ops: *mut u64,
        ops_length: usize,
        accesses: *mut u64,
        accesses_length: usize,
        counts: *mut [u64; 2],
    ) -> Answer;
    fn generate_copy_trace(
        ops: *const u64,
        ops_length: usize,
        table: *mut u64,
        table_length: usize,
    ) -> Answer;
    fn chain_check(gap: u64, rows: *const u64, rows_length: usize) -> Answer;
    fn read_back(
        gap: u64,
        rows: *const u64,
        rows_length: usize,
        ops: *mut u64,
        ops_length: usize,
        calls: *mut u64,
        calls_length: usize,
        counts: *mut [u64; 2],
    ) -> Answer;
}

const GAP: u64 = 8;
const OP_WIDTH: usize = 16;
const ACCESS_WIDTH: usize = 29;
const CALL_WIDTH: usize = 5;
const COLUMNS: usize = 41;

fn say(step: &str, answer: Answer) {
    let Answer { number, place, value } = answer;
    match number {
        0 => println!("{step}: {value}"),
        _ => println!("{step}: refused with {number} at {place}, value {value}"),
    }
}

fn check(rows: &[u64]) -> Answer {
    // Safety: pointer and length are a slice's.
    unsafe { chain_check(GAP, rows.as_ptr(), rows.len()) }
}

fn main() {
    let mut bytes = [0u8; 32];
    bytes[..7].copy_from_slice(b"pattern");
    let mut stamps = [0u64; 32];
    let mut ops = [0u64; 4 * OP_WIDTH];
    let mut accesses = [0u64; 8 * ACCESS_WIDTH];
    let mut table = [0u64; 4 * COLUMNS];
    let mut back = [0u64; 4 * OP_WIDTH];
    let mut calls = [0u64; 4 * CALL_WIDTH];
    let mut counts = [0u64; 2];

    // Copy 9 bytes from cell 0 to cell 16 at stamp 4.
    // Safety, here and below: each pointer is a slice's of its own, with its length.
    let expanded = unsafe {
        collect_copy_ops(
            0,
            4,
            0,
            16,
            9,
            GAP,
            bytes.as_mut_ptr(),
            bytes.len(),
            stamps.as_mut_ptr(),
            stamps.len(),
            ops.as_mut_ptr(),
            ops.len(),
            accesses.as_mut_ptr(),
            accesses.len(),
            &mut counts,
        )
    };
    say("operation records", expanded);
    println!("access records: {}", counts[1]);
    println!("copied: {}", String::from_utf8_lossy(&bytes[16..23]));

    let records = &ops[..expanded.value as usize * OP_WIDTH];
    let made = unsafe {
        generate_copy_trace(records.as_ptr(), records.len(), table.as_mut_ptr(), table.len())
    };
    say("table rows", made);

    // Only the rows written are checked.
    let rows = &mut table[..made.value as usize * COLUMNS];
    say("chain check", check(rows));
    let read = unsafe {
        read_back(
            GAP,
            rows.as_ptr(),
            rows.len(),
            back.as_mut_ptr(),
            back.len(),
            calls.as_mut_ptr(),
            calls.len(),
            &mut counts,
        )
    };
    say("read back", read);
    let [kind, stamp, src, dst, count] = *calls.first_chunk().expect("five numbers");
    println!("call: kind {kind}, stamp {stamp}, src {src}, dst {dst}, count {count}");

    // Column 10 is the low word of SRC: the row now names another source.
    rows[COLUMNS + 10] += 1;
    say("chain check of the changed rows", check(rows));
}
