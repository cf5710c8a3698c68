//! Access lists for the lookups: register accesses at every difference that the register
//! table takes, among others.

use super::numbers::{edge_below, half, junk, room, word};
use super::records::{self, Kind, ROUTABLE};
use crate::oracle::records::{ACCESS, is_access};
use crate::oracle::route_by_words;
use crate::protocol::Question;
use crate::rng::Rng;

/// The function, and the numbers of a pair.
pub const LOOKUPS: &str = "register_lookups";
pub const PAIR: usize = 2;

/// Accesses that can be routed, more than half of them to the register table.
pub(super) const LOOKED_UP: Kind = Kind {
    width: ACCESS,
    make: access,
    spoil: ROUTABLE.spoil,
};

/// An access that can be routed, as often as not to the register table.
pub fn access(rng: &mut Rng) -> Vec<u64> {
    let mut record = records::routable(rng);
    if rng.bit() == 1 {
        bring_near(rng, &mut record);
    }
    record
}

/// A register access of two words, 1 to 65,536 above its old stamp, which has any high
/// word and any low one that leaves room for the difference.
fn bring_near(rng: &mut Rng, record: &mut [u64]) {
    let difference = 1 + half(rng);
    let low = edge_below(rng, (1 << 32) - difference);
    let old = (word(rng) << 32) + low;
    record[0] = 1;
    record[1] = 2 * half(rng);
    record[10] = old + difference;
    record[11] = 2;
    record[21..29].fill(old);
}

/// How many pairs the whole records of a list have; a damaged one has none.
pub fn pairs_of(accesses: &[u64]) -> usize {
    let wanted = |record: &&[u64]| is_access(record) && route_by_words(record) == 0;
    accesses.chunks_exact(ACCESS).filter(wanted).count()
}

fn asked(accesses: Vec<u64>, lookups: Vec<u64>) -> Question {
    Question::new(LOOKUPS, vec![accesses.into(), lookups.into()])
}

/// A list of a few records, or at the limit, and a buffer around what its pairs take.
pub fn question(rng: &mut Rng) -> Question {
    let make = if rng.once_in(4) {
        records::access
    } else {
        access
    };
    let accesses = records::list(rng, ACCESS, make);
    let length = room(rng, PAIR * pairs_of(&accesses));
    let lookups = junk(rng, length);
    asked(accesses, lookups)
}

/// A read of x10 that is written together.
fn register(timestamp: u64, old: u64) -> Vec<u64> {
    let mut record = vec![0; ACCESS];
    record[..3].copy_from_slice(&[1, 20, 7]);
    record[10..14].copy_from_slice(&[timestamp, 2, 1, 7]);
    record[21..23].fill(old);
    record
}

/// A read of eight bytes at an address, all written at stamp 3.
fn memory(address: u64) -> Vec<u64> {
    let mut record = vec![0; ACCESS];
    record[1] = address;
    record[10..13].copy_from_slice(&[9, 8, 1]);
    record[21..29].fill(3);
    record
}

/// What is always asked: the request's three differences with an aligned and a general access
/// between them, no record, none of a register, and 11 before 9.
pub fn always() -> Vec<Question> {
    let mixed = [
        memory(16),
        register(65_537, 1),
        register(2, 1),
        memory(17),
        register((1 << 32) + 258, 1 << 32),
    ];
    let mut odd = register(2, 1);
    odd[1] = 21;
    vec![
        asked(mixed.concat(), vec![9; 7]),
        asked(vec![], vec![]),
        asked([memory(16), memory(17)].concat(), vec![]),
        asked([register(2, 1), odd].concat(), vec![]),
    ]
}
