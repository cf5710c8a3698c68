//! Records and lists of them, damaged and cut ones included.

use super::numbers::{byte, edge, half, junk, room, word};
use crate::oracle::LIST_LIMIT;
use crate::oracle::records::{ACCESS, OPERATION, REGISTER};
use crate::protocol::{Argument, Question};
use crate::rng::Rng;

/// An admitted operation record; often one that a call could have.
pub fn operation(rng: &mut Rng) -> Vec<u64> {
    let width = match rng.below(4) {
        0 => byte(rng),
        _ => rng.pick(&[1, 8]),
    };
    let mut record = rng.many(4, edge);
    record.extend([width, rng.bit(), rng.bit(), rng.below(3)]);
    record.extend(rng.many(8, byte));
    record
}

/// Distances of a stamp from the old one, around what the register table takes.
const DISTANCES: [u64; 10] = [
    0,
    1,
    2,
    65_535,
    65_536,
    65_537,
    65_538,
    1 << 32,
    40,
    u64::MAX,
];

/// A stamp and an old stamp at an edge of the register route.
pub fn stamps(rng: &mut Rng) -> (u64, u64) {
    let old = match rng.below(3) {
        0 => edge(rng),
        1 => (1u64 << 32).wrapping_sub(rng.pick(&[0, 1, 2, 65_536, 65_537])),
        _ => rng.below(100_000),
    };
    (old.wrapping_add(rng.pick(&DISTANCES)), old)
}

/// An address, often at the end of a word or a register's.
pub fn address(rng: &mut Rng) -> u64 {
    match rng.below(6) {
        0 => edge(rng),
        1 => (1u64 << 32)
            .wrapping_sub(rng.below(10))
            .wrapping_add(rng.below(3) << 32),
        2 => 2 * rng.pick(&[65_534, 65_535, 65_536, 254, 255]) + rng.bit(),
        _ => rng.below(64) * rng.pick(&[1, 2, 2, 8]),
    }
}

/// An admitted access record near the edges of the three routes.
pub fn access(rng: &mut Rng) -> Vec<u64> {
    let (timestamp, old) = stamps(rng);
    let is_register = u64::from(!rng.once_in(3));
    let width = if is_register == 1 && !rng.once_in(4) {
        2
    } else {
        rng.pick(&[1, 2, 4, 8])
    };
    let mut old_stamps = vec![old; 8];
    match rng.below(4) {
        0 => old_stamps[rng.place(8)] = edge(rng),
        1 => old_stamps[rng.place(width as usize)] ^= 1 << rng.below(64),
        2 => old_stamps[width as usize..].fill(0),
        _ => {}
    }
    let mut record = vec![is_register, address(rng)];
    record.extend(rng.many(8, word));
    record.extend([timestamp, width, rng.bit()]);
    record.extend(rng.many(8, word));
    record.extend(old_stamps);
    record
}

/// An access record that no table lacks an index for, so that lists get through 11.
pub fn routable(rng: &mut Rng) -> Vec<u64> {
    let mut record = access(rng);
    if record[0] == 1 {
        record[1] = 2 * half(rng);
    }
    record
}

/// An admitted register record.
pub fn register(rng: &mut Rng) -> Vec<u64> {
    let mut record = vec![half(rng), edge(rng)];
    record.extend(rng.many(5, word));
    record.push(rng.bit());
    record
}

/// A field that a whole record cannot have, by the record's width.
fn spoil(rng: &mut Rng, record: &mut [u64]) {
    let bad_bit = |rng: &mut Rng| rng.pick(&[2, 3, 1 << 32, u64::MAX]);
    let bad_word = |rng: &mut Rng| rng.pick(&[1 << 32, (1 << 32) + 1, u64::MAX]);
    let bad_byte = |rng: &mut Rng| rng.pick(&[256, 257, 1 << 32, u64::MAX]);
    let (place, value) = match (record.len(), rng.below(3)) {
        (OPERATION, 0) => (rng.pick(&[5, 6]), bad_bit(rng)),
        (OPERATION, 1) => (7, rng.pick(&[3, 4, u64::MAX])),
        (OPERATION, _) => (rng.pick(&[4, 8, 9, 15]), bad_byte(rng)),
        (ACCESS, 0) => (rng.pick(&[0, 12]), bad_bit(rng)),
        (ACCESS, 1) => (11, rng.pick(&[0, 3, 5, 6, 7, 9, 16, 1 << 32, u64::MAX])),
        (ACCESS, _) => (rng.pick(&[2, 9, 13, 20]), bad_word(rng)),
        (_, 0) => (0, rng.pick(&[65_536, 1 << 32, u64::MAX])),
        (_, 1) => (7, bad_bit(rng)),
        (..) => (2 + rng.place(5), bad_word(rng)),
    };
    record[place] = value;
}

/// A list of records: mostly whole and admitted, else damaged, cut, or too long.
pub fn list(rng: &mut Rng, width: usize, make: fn(&mut Rng) -> Vec<u64>) -> Vec<u64> {
    if rng.once_in(4000) {
        return long_list(rng, width);
    }
    let length = rng.pick(&[0, 1, 2, 3, 4, 5, 7, 8, 9, 16, 17]);
    let mut records = rng.many(length, make);
    while length > 0 && rng.once_in(5) {
        let place = rng.place(length);
        spoil(rng, &mut records[place]);
    }
    let mut list = records.concat();
    if rng.once_in(8) {
        let more = make(rng);
        list.extend(&more[..1 + rng.place(width - 1)]);
    }
    list
}

/// At the limit of records or past it, cut or whole, with a bad record or none. The
/// zero record is good except of an access, whose width is then 0.
fn long_list(rng: &mut Rng, width: usize) -> Vec<u64> {
    let cut = rng.pick(&[0, 0, 1, width - 1]);
    let length = (LIST_LIMIT + rng.place(2)) * width + cut;
    let mut list = vec![0; length];
    if width == ACCESS {
        list.chunks_exact_mut(width)
            .for_each(|record| record[11] = 1);
    }
    if rng.bit() == 1 {
        list[(LIST_LIMIT - 1) * width + 7] = u64::MAX;
    }
    list
}

/// Least power of two that is at least the count, and at least 4.
pub(super) fn rows(records: usize) -> usize {
    records.next_power_of_two().max(4)
}

/// How records of a list are made, and how one is made bad.
pub(super) struct Kind {
    pub width: usize,
    pub make: fn(&mut Rng) -> Vec<u64>,
    pub spoil: fn(&mut Rng, &mut [u64]),
}

/// Accesses that can be routed; a bad one meets 10 or 11.
pub(super) const ROUTABLE: Kind = Kind {
    width: ACCESS,
    make: routable,
    spoil: |rng, record| match rng.bit() {
        0 => spoil(rng, record),
        _ => lose_index(rng, record),
    },
};

/// A register access, near its old stamp, at an address that the register table lacks.
fn lose_index(rng: &mut Rng, record: &mut [u64]) {
    let old = rng.below(1 << 31);
    record[0] = 1;
    record[1] = rng.pick(&[1, 23, 131_071, 131_072, 131_073, 1 << 32, u64::MAX]);
    record[10] = old + rng.pick(&[1, 2, 65_535, 65_536]);
    record[11] = 2;
    record[21..29].fill(old);
}

/// The records of a maker's list, and the columns of its table.
pub(super) fn kind_of_table(name: &str) -> (Kind, usize) {
    let (width, columns, make): (_, _, fn(&mut Rng) -> Vec<u64>) = match name {
        "generate_copy_trace" => (OPERATION, 41, operation),
        "generate_memw_trace" => (ACCESS, 49, access),
        "generate_memw_aligned_trace" => (ACCESS, 29, access),
        _ => (REGISTER, 10, register),
    };
    (Kind { width, make, spoil }, columns)
}

/// A question to a maker.
pub fn table_question(rng: &mut Rng, name: &str) -> Question {
    let (Kind { width, make, .. }, columns) = kind_of_table(name);
    let records = list(rng, width, make);
    let length = room(rng, rows(records.len() / width) * columns);
    Question::new(name, vec![records.into(), junk(rng, length).into()])
}

/// A question to routing. The lists' true lengths are not known here: half the time
/// each buffer takes any list, else its length is a guess, so that 9 occurs.
pub fn route_question(rng: &mut Rng) -> Question {
    let make = if rng.once_in(3) { access } else { routable };
    let accesses = list(rng, ACCESS, make);
    let records = accesses.len() / ACCESS;
    let tight = rng.bit() == 1;
    let mut arguments: Vec<Argument> = vec![accesses.into()];
    for width in [REGISTER, ACCESS, ACCESS] {
        let guess = if tight && records > 0 {
            rng.place(records + 1)
        } else {
            records
        };
        let length = if tight {
            room(rng, guess * width)
        } else {
            guess * width
        };
        arguments.push(junk(rng, length).into());
    }
    arguments.push(junk(rng, 3).into());
    Question::new("route_accesses", arguments)
}

/// A question to `push_reg_access`.
pub fn push_question(rng: &mut Rng) -> Question {
    let (timestamp, old_timestamp) = stamps(rng);
    let is_read = if rng.once_in(10) {
        edge(rng)
    } else {
        rng.bit()
    };
    let mut arguments: Vec<Argument> = vec![address(rng).into()];
    arguments.extend(rng.many(4, |rng| Argument::Number(word(rng))));
    arguments.extend([timestamp, old_timestamp, is_read].map(Argument::Number));
    arguments.push(junk(rng, ACCESS).into());
    Question::new("push_reg_access", arguments)
}
