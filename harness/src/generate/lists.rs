//! Lists of copy rows: sound ones, damaged ones, rows solved in the field, spliced
//! calls, dead rows that are not padding.

use super::long::log_scaled;
use super::numbers::{bad_gap, edge, gap, junk, non_element, room};
use super::solve::{Plan, solved, solved_once};
use super::{calls, rows};
use crate::protocol::{Argument, Question};
use crate::rng::Rng;
use crate::sound::{self, Call, CutCall};

pub(super) type Rows = Vec<Vec<u64>>;

fn rows_of(numbers: Vec<u64>) -> Rows {
    numbers.chunks(41).map(<[u64]>::to_vec).collect()
}

/// The row that fills a table: 8 in COUNT_0, SRC_INCR_0 and DST_INCR_0.
fn padding() -> Vec<u64> {
    let mut row = vec![0; 41];
    for column in [12, 18, 22] {
        row[column] = 8;
    }
    row
}

/// Padding, or another dead row that passes.
pub(super) fn dead(rng: &mut Rng) -> Vec<u64> {
    if rng.bit() == 1 {
        return padding();
    }
    let (call, piece) = calls::dead_parts(rng);
    sound::dead_row(&call, &piece)
}

/// The rows of a few sound calls, then a few dead rows.
fn sound_list(rng: &mut Rng, gap: u64) -> Rows {
    let calls = rng.below(4) as usize;
    let cuts = rng.many(calls, |rng| calls::cut_call(rng, gap));
    let mut list = rows_of(cuts.iter().flat_map(sound::rows_of).collect());
    let deads = if rng.bit() == 1 { rng.place(4) } else { 0 };
    list.extend(rng.many(deads, dead));
    list
}

/// Sound calls of so many rows in all, of one row and more.
fn live(rng: &mut Rng, gap: u64, rows: usize) -> Rows {
    let mut list = Rows::new();
    while list.len() < rows {
        let most = rows - list.len();
        let rows = log_scaled(rng, most).max(1);
        list.extend(rows_of(sound::rows_of(&calls::call_of_rows(
            rng, gap, rows,
        ))));
    }
    list
}

/// A sound list of so many rows, the last ones dead, or none, or any number of them.
pub(super) fn sound(rng: &mut Rng, gap: u64, rows: usize) -> Rows {
    let deads = match rng.below(3) {
        0 => 0,
        1 => rng.place(rows.min(5) + 1),
        _ => rng.place(rows + 1),
    };
    let mut list = live(rng, gap, rows - deads);
    list.extend(rng.many(deads, dead));
    list
}

/// Sound calls, of which the last lacks its last row.
pub(super) fn unended(rng: &mut Rng, gap: u64, rows: usize) -> Rows {
    let last = log_scaled(rng, rows).max(rows.min(1));
    let mut list = live(rng, gap, rows - last);
    let cut = calls::call_of_rows(rng, gap, last + 1);
    list.extend(rows_of(sound::rows_of(&cut)));
    list.truncate(rows);
    list
}

/// One change to the row at this place, or to where it stands.
pub(super) fn damage(rng: &mut Rng, gap: u64, list: &mut Rows, place: usize) {
    match rng.below(8) {
        0 => list[place][rng.place(41)] = non_element(rng),
        1 => alias(rng, &mut list[place]),
        2 => list[place] = solved(rng, gap),
        3 => list[place] = dead(rng),
        4 => list[place] = list[place.saturating_sub(1)].clone(),
        5 => list[place][32 + rng.place(9)] ^= 1,
        6 => rebuild(rng, gap, &mut list[place]),
        _ => rows::change(rng, &mut list[place]),
    }
}

/// Rows as a call that is not sound would have them.
pub(super) fn wild_call(rng: &mut Rng, gap: u64) -> Rows {
    let call = calls::call(rng, gap);
    rows_of(sound::rows_of(&calls::cut(rng, call)))
}

/// A call of which one row is solved in the field with one odd choice. The rows after
/// it go on from what it claims, as a row maker would have them.
fn odd_call(rng: &mut Rng, gap: u64) -> Rows {
    let cut = calls::cut_call(rng, gap);
    let odd = rng.place(cut.pieces.len());
    let mut rest = cut.call;
    let mut list = Rows::new();
    for (place, &piece) in cut.pieces.iter().enumerate() {
        let (first, end) = (place == 0, rest.count <= piece.width);
        let plan = Plan {
            rest,
            piece,
            first,
            end,
            live: true,
        };
        let row = match place == odd {
            true => solved_once(rng, gap, &plan),
            false => sound::live_row(&rest, &piece, first, end),
        };
        rest = after(&row, rest);
        let ends = row[33] == 1 || (place == odd && rng.once_in(4));
        list.push(row);
        if ends {
            return list;
        }
    }
    if rest.count <= 8 {
        list.push(overrun(&cut, &rest));
    }
    list
}

/// What a row leaves of its call, by its own columns.
fn after(row: &[u64], rest: Call) -> Call {
    let number = |column: usize| {
        (0..4).fold(0, |sum: u64, half| {
            sum.wrapping_add(row[column + half] << (16 * half))
        })
    };
    Call {
        src: number(12),
        dst: number(18),
        count: number(24),
        ..rest
    }
}

/// One row more than the call has, at the count that is left, with END.
fn overrun(cut: &CutCall, rest: &Call) -> Vec<u64> {
    let piece = cut.pieces[cut.pieces.len() - 1];
    sound::live_row(rest, &piece, false, true)
}

/// A dead row with one odd choice.
pub(super) fn odd_dead(rng: &mut Rng, gap: u64) -> Vec<u64> {
    let (mut rest, piece) = calls::dead_parts(rng);
    if rng.bit() == 1 {
        rest.count = piece.width;
    }
    let plan = Plan {
        rest,
        piece,
        first: false,
        end: false,
        live: false,
    };
    solved_once(rng, gap, &plan)
}

/// A list, sound or not, and the gap it was made under.
fn list(rng: &mut Rng) -> (u64, Rows) {
    let gap = gap(rng);
    let mut list = sound_list(rng, gap);
    match rng.below(14) {
        0..=2 => {}
        3 => list.insert(0, solved(rng, gap)),
        4 => drop(list.splice(0..0, wild_call(rng, gap))),
        5 => list = odd_call(rng, gap),
        6 => drop(list.splice(0..0, odd_call(rng, gap))),
        7 | 8 => list.push(odd_dead(rng, gap)),
        _ => {
            mutate(rng, gap, &mut list);
            while rng.once_in(3) {
                mutate(rng, gap, &mut list);
            }
        }
    }
    (gap, list)
}

/// One change to a list.
fn mutate(rng: &mut Rng, gap: u64, list: &mut Rows) {
    let length = list.len();
    if length == 0 {
        list.push(rows::copy_row(rng, gap));
        return;
    }
    let place = rng.place(length);
    match rng.below(14) {
        0 => drop(list.remove(place)),
        1 => list.insert(place, list[place].clone()),
        2 => list.swap(place, rng.place(length)),
        3 => list.insert(place, dead(rng)),
        4 => list.truncate(place),
        5 => list[place] = solved(rng, gap),
        6 => drop(list.splice(place..place, sound_list(rng, gap))),
        7 => list.rotate_left(place),
        8 => alias(rng, &mut list[place]),
        9 => list[place][32 + rng.place(9)] ^= 1,
        10 | 11 => rebuild(rng, gap, &mut list[place]),
        _ => rows::change(rng, &mut list[place]),
    }
}

/// The same 64-bit number written another way, out of range: one more in the lower
/// column's next place, one less in the column above it.
fn alias(rng: &mut Rng, row: &mut [u64]) {
    let (column, size) = match rng.bit() {
        0 => (rng.pick(&[0, 10, 16, 22]), 1 << 32),
        _ => (rng.pick(&[12, 13, 14, 18, 20, 24, 26, 28, 30]), 1 << 16),
    };
    row[column] = row[column].wrapping_add(size) % crate::oracle::PRIME;
    row[column + 1] = row[column + 1].saturating_sub(1);
}

/// A row made anew after a change of what it says, so that its residues mostly stay
/// 0 and its links break.
pub(super) fn rebuild(rng: &mut Rng, gap: u64, row: &mut Vec<u64>) {
    let Some((mut call, mut piece)) = sound::read_row(row) else {
        return;
    };
    let [mut first, mut end] = [row[32] == 1, row[33] == 1];
    let near = |rng: &mut Rng, number: u64| match rng.below(6) {
        0 => edge(rng),
        1 => number.wrapping_add(1),
        2 => number.wrapping_sub(1),
        3 => number ^ 1 << 32,
        4 => number ^ 1 << 63,
        _ => number.wrapping_add(piece.width),
    };
    match rng.below(8) {
        0 => call.stamp = near(rng, call.stamp),
        1 => call.src = near(rng, call.src),
        2 => call.dst = near(rng, call.dst),
        3 => call.count = near(rng, call.count),
        4 => call.kind = rng.below(3),
        5 => first = !first,
        6 => end = !end,
        _ => piece.width = 9 - piece.width,
    }
    if call.kind == 1 && !rng.once_in(4) {
        call = Call {
            dst: call.src.wrapping_add(gap),
            ..call
        };
    }
    *row = sound::live_row(&call, &piece, first, end);
}

/// The whole input of a chain check, with 7, 13 and 14 at times.
fn input(rng: &mut Rng) -> (u64, Vec<u64>) {
    let (gap, mut list) = list(rng);
    while !list.is_empty() && rng.once_in(16) {
        let place = rng.place(list.len());
        list[place][rng.place(41)] = non_element(rng);
    }
    let mut numbers = list.concat();
    match rng.below(40) {
        0 => numbers.truncate(rng.place(numbers.len() + 1)),
        1 => numbers.push(edge(rng)),
        _ => {}
    }
    let gap = match rng.below(40) {
        0 => bad_gap(rng),
        1 => gap ^ 1,
        _ => gap,
    };
    (gap, numbers)
}

pub fn check_question(rng: &mut Rng) -> Question {
    let (gap, rows) = input(rng);
    Question::new("chain_check", vec![gap.into(), rows.into()])
}

/// Buffers are sized by the rows that look live, so that 9 is met on lists that pass.
pub fn read_question(rng: &mut Rng) -> Question {
    let (gap, rows) = input(rng);
    let whole = rows.chunks_exact(41).filter(|row| row[38] == 1);
    let live = whole.clone().count();
    let calls = whole.filter(|row| row[32] == 1).count();
    let [ops, calls] = [16 * live, 5 * calls].map(|result| room(rng, result));
    let mut arguments: Vec<Argument> = vec![gap.into(), rows.into()];
    arguments.extend([ops, calls, 2].map(|length| Argument::List(junk(rng, length))));
    Question::new("read_back", arguments)
}
