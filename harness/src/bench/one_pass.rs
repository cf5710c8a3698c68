//! A good chain check, row check and read-back in plain Rust, to measure against: one
//! pass over the rows; the ranges by an OR over the columns of a width; all residues at
//! once in the field, with what several share computed once; no allocation. The self-test
//! holds it against the oracle.

use super::answered;
use super::goldilocks::{INV_SHIFT_32, add, mul, sub};
use crate::oracle::{Answer, COPY_COLUMNS, GAP_LIMIT, PRIME};
use original::tables::copy::cols;

type Row = [u64; COPY_COLUMNS];

/// Numbers in an operation record, and in a call.
const OPERATION: usize = 16;
const CALL: usize = 5;

/// Live rows and calls.
#[derive(Default)]
struct Counts {
    live: usize,
    calls: usize,
}

pub fn chain_check(gap: u64, rows: &[u64]) -> Answer {
    match check(gap, rows) {
        Ok(_) => answered(rows.len() / COPY_COLUMNS),
        Err(refusal) => refusal,
    }
}

#[inline(never)]
pub fn row_check(gap: u64, row: &[u64]) -> Answer {
    if gap >= GAP_LIMIT {
        return refused(7, 0);
    }
    match row.try_into() {
        Ok(row) if passes(gap, row) => answered(0),
        Ok(row) => fault(gap, row),
        Err(_) => refused(13, 0),
    }
}

pub fn read_back(
    gap: u64,
    rows: &[u64],
    ops: &mut [u64],
    calls: &mut [u64],
    counts: &mut [u64; 2],
) -> Answer {
    let found = match check(gap, rows) {
        Ok(found) => found,
        Err(refusal) => return refusal,
    };
    if ops.len() < OPERATION * found.live || calls.len() < CALL * found.calls {
        return refused(9, 0);
    }
    let (rows, _) = rows.as_chunks::<COPY_COLUMNS>();
    let (ops, _) = ops.as_chunks_mut::<OPERATION>();
    let (calls, _) = calls.as_chunks_mut::<CALL>();
    let mut call = 0;
    // Live rows come first.
    for (row, op) in rows[..found.live].iter().zip(ops) {
        *op = operation_of(row);
        if row[cols::FIRST] == 1 {
            calls[call] = [op[7], op[0], op[1], op[2], op[3]];
            call += 1;
        }
    }
    *counts = [found.live as u64, found.calls as u64];
    answered(found.live)
}

fn refused(number: u64, place: usize) -> Answer {
    Answer {
        number,
        place: place as u64,
        value: 0,
    }
}

#[inline(never)]
fn check(gap: u64, rows: &[u64]) -> Result<Counts, Answer> {
    if gap >= GAP_LIMIT {
        return Err(refused(7, 0));
    }
    let (rows, rest) = rows.as_chunks::<COPY_COLUMNS>();
    if !rest.is_empty() {
        return Err(refused(13, 0));
    }
    let mut counts = Counts::default();
    let mut before: Option<&Row> = None;
    for (place, row) in rows.iter().enumerate() {
        if !passes(gap, row) {
            let place = place as u64;
            return Err(Answer {
                place,
                ..fault(gap, row)
            });
        }
        if !is_linked(before, row) {
            return Err(refused(17, place));
        }
        counts.live += row[cols::MU] as usize;
        counts.calls += row[cols::FIRST] as usize;
        before = Some(row);
    }
    match before {
        Some(row) if row[cols::MU] == 1 && row[cols::END] == 0 => Err(refused(18, rows.len())),
        _ => Ok(counts),
    }
}

/// Whether a row meets none of 14, 15 and 16.
#[inline(always)]
fn passes(gap: u64, row: &Row) -> bool {
    is_in_range(row) && residues(gap, row).iter().fold(0, |all, r| all | r) == 0
}

/// 14, 15 or 16 of a row that meets one of them, with the place that a row alone has.
#[cold]
#[inline(never)]
fn fault(gap: u64, row: &Row) -> Answer {
    if let Some(place) = row.iter().position(|&number| number >= PRIME) {
        return refused(14, place);
    }
    if !is_in_range(row) {
        return refused(15, 0);
    }
    let index = residues(gap, row).iter().position(|&residue| residue != 0);
    Answer {
        value: index.expect("a residue that is not 0") as u64,
        ..refused(16, 0)
    }
}

/// Elements, and in the columns of words, halves and bytes no more than these.
#[inline(always)]
fn is_in_range(row: &Row) -> bool {
    let all = |columns: &[u64]| columns.iter().fold(0, |all, number| all | number);
    let words = all(&row[0..2]) | all(&row[10..12]) | all(&row[16..18]) | all(&row[22..24]);
    let halves = all(&row[12..16]) | all(&row[18..22]) | all(&row[24..32]);
    let elements = row[32..].iter().all(|&number| number < PRIME);
    (words >> 32) | (halves >> 16) | (all(&row[2..10]) >> 8) == 0 && elements
}

/// The two words that four halves make; they are in range.
#[inline(always)]
fn words_of_halves(row: &Row, column: usize) -> [u64; 2] {
    let word = |at: usize| row[at] | row[at + 1] << 16;
    [word(column), word(column + 2)]
}

/// The two carries of a sum whose parts add up to these elements.
#[inline(always)]
fn carries([low, high]: [u64; 2], sum: [u64; 2]) -> [u64; 2] {
    let c0 = mul(sub(low, sum[0]), INV_SHIFT_32);
    let c1 = mul(sub(add(high, c0), sum[1]), INV_SHIFT_32);
    [c0, c1]
}

/// x(1 - x)
#[inline(always)]
fn bit(x: u64) -> u64 {
    mul(x, sub(1, x))
}

/// The 40 residues of a row in range. The count's high carry is the borrow.
#[inline(always)]
fn residues(gap: u64, row: &Row) -> [u64; 40] {
    let [first, end, single] = [row[cols::FIRST], row[cols::END], row[cols::SINGLE]];
    let [is_set, is_write, mu] = [row[cols::IS_SET], row[cols::IS_WRITE], row[cols::MU]];
    let words = |column: usize| [row[column], row[column + 1]];
    let (src, dst, count) = (words(cols::SRC_0), words(cols::DST_0), words(cols::COUNT_0));
    let halves = |column: usize| words_of_halves(row, column);
    let res = halves(cols::DST_RES_0);

    let step = sub(8, mul(7, single));
    let by_step = |[low, high]: [u64; 2]| [add(low, step), high];
    let src_carries = carries(by_step(src), halves(cols::SRC_INCR_0));
    let dst_carries = carries(by_step(dst), halves(cols::DST_INCR_0));
    let borrows = carries(by_step(halves(cols::COUNT_DECR_0)), count);
    // Sums of words, and the gap, are plain.
    let res_carries = carries([dst[0] + count[0], dst[1] + count[1]], res);
    let gap_carries = carries([src[0] + gap, src[1]], dst);

    let borrow = borrows[1];
    let active = sub(mu, borrow);
    let not_mu = sub(1, mu);
    let not_write = sub(1, is_write);
    let ends = mul(end, sub(1, borrow));
    let tail = |lane: usize| mul(single, row[cols::VALUE_0 + lane]);
    [
        bit(first),
        bit(end),
        bit(single),
        bit(mu),
        bit(is_set),
        bit(is_write),
        mul(add(first, end), not_mu),
        mul(is_set, is_write),
        mul(add(is_set, is_write), not_mu),
        sub(row[cols::FIRST_WRITE], mul(first, is_write)),
        bit(src_carries[0]),
        bit(src_carries[1]),
        bit(dst_carries[0]),
        bit(dst_carries[1]),
        bit(borrows[0]),
        bit(borrow),
        mul(is_write, bit(res_carries[0])),
        mul(is_write, bit(res_carries[1])),
        mul(not_write, sub(res[0], dst[0])),
        mul(not_write, sub(res[1], dst[1])),
        mul(is_set, bit(gap_carries[0])),
        mul(is_set, bit(gap_carries[1])),
        tail(1),
        tail(2),
        tail(3),
        tail(4),
        tail(5),
        tail(6),
        tail(7),
        mul(borrow, sub(1, first)),
        mul(borrow, count[0]),
        mul(borrow, count[1]),
        mul(ends, count[1]),
        mul(ends, sub(count[0], step)),
        mul(borrow, sub(1, end)),
        sub(row[cols::MU_COM], mul(active, is_write)),
        sub(
            row[cols::MU_COM_WIDE],
            mul(row[cols::MU_COM], sub(1, single)),
        ),
        mul(active, src_carries[1]),
        mul(active, dst_carries[1]),
        mul(is_set, gap_carries[1]),
    ]
}

/// 17's rule, for a row that passed 14 to 16 and the row before it.
#[inline(always)]
fn is_linked(before: Option<&Row>, row: &Row) -> bool {
    let (live, first) = (row[cols::MU] == 1, row[cols::FIRST] == 1);
    let Some(before) = before else {
        return !live || first;
    };
    match (before[cols::MU] == 1, before[cols::END] == 1) {
        (false, _) => !live,
        (true, true) => !live || first,
        (true, false) => live && !first && follows(before, row),
    }
}

/// Same timestamp and kind; SRC, DST and COUNT go on from the row before.
#[inline(always)]
fn follows(before: &Row, row: &Row) -> bool {
    let same = |column: usize| row[column] ^ before[column];
    let goes_on = |column: usize, halves: usize| {
        let [low, high] = words_of_halves(before, halves);
        row[column] ^ low | row[column + 1] ^ high
    };
    let differs = same(cols::TIMESTAMP_0)
        | same(cols::TIMESTAMP_1)
        | same(cols::IS_SET)
        | same(cols::IS_WRITE)
        | goes_on(cols::SRC_0, cols::SRC_INCR_0)
        | goes_on(cols::DST_0, cols::DST_INCR_0)
        | goes_on(cols::COUNT_0, cols::COUNT_DECR_0);
    differs == 0
}

fn operation_of(row: &Row) -> [u64; OPERATION] {
    let number = |column: usize| row[column] | row[column + 1] << 32;
    let mut op = [0; OPERATION];
    op[0] = number(cols::TIMESTAMP_0);
    op[1] = number(cols::SRC_0);
    op[2] = number(cols::DST_0);
    op[3] = number(cols::COUNT_0);
    op[4] = 8 - 7 * row[cols::SINGLE];
    op[5] = row[cols::FIRST];
    op[6] = row[cols::END];
    op[7] = row[cols::IS_SET] + 2 * row[cols::IS_WRITE];
    op[8..].copy_from_slice(&row[cols::VALUE_0..cols::VALUE_0 + 8]);
    op
}
