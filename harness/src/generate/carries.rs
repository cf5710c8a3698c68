//! Lists of accesses for the general table around the ends of low words, where its CARRY
//! flags change: at every address from 2^32 - 10 to 2^32 + 2, under several high words.

use super::numbers::{junk, room, word};
use super::records::{access, rows};
use crate::oracle::records::ACCESS;
use crate::protocol::Question;
use crate::rng::Rng;

/// The maker whose rows have CARRY, and the columns of its table.
pub const MAKER: &str = "generate_memw_trace";
const COLUMNS: usize = 49;

/// How many addresses there are under a high word, and how many of them lie below the end.
pub const ADDRESSES: usize = 13;
const BELOW: u64 = 10;

/// The high words that come in every run. Past the end of the last one addresses go on from 0.
pub const HIGH_WORDS: [u64; 5] = [0, 1, 2, 1 << 31, (1 << 32) - 1];

/// Lists that are drawn for every run.
const DRAWN: usize = 1000;

/// The addresses under a high word, in order.
fn addresses(high: u64) -> [u64; ADDRESSES] {
    let end = (high << 32).wrapping_add(1 << 32);
    std::array::from_fn(|i| end.wrapping_sub(BELOW).wrapping_add(i as u64))
}

/// Which of the addresses this one is by its low word.
pub fn place(address: u64) -> Option<usize> {
    let place = (address.wrapping_add(BELOW) % (1 << 32)) as usize;
    (place < ADDRESSES).then_some(place)
}

/// For each high word an access of eight bytes at each address. The table has a number
/// more than the result, which must be kept.
pub fn at_each_address() -> Vec<Question> {
    let access = |address: u64| {
        let mut record = [0; ACCESS];
        record[1] = address;
        record[11] = 8;
        record
    };
    let table = vec![7; rows(ADDRESSES) * COLUMNS + 1];
    let question = |high: u64| {
        let list = addresses(high).map(access).concat();
        Question::new(MAKER, vec![list.into(), table.clone().into()])
    };
    HIGH_WORDS.into_iter().map(question).collect()
}

/// Accesses of all kinds at these addresses, under any high word.
fn drawn(rng: &mut Rng) -> Question {
    let length = 1 + rng.place(17);
    let records = rng.many(length, |rng| {
        let mut record = access(rng);
        let high = word(rng);
        record[1] = rng.pick(&addresses(high));
        record
    });
    let table = room(rng, rows(length) * COLUMNS);
    Question::new(
        MAKER,
        vec![records.concat().into(), junk(rng, table).into()],
    )
}

/// What every run on the general table's maker begins with.
pub fn questions(seed: u64) -> Vec<Question> {
    let mut questions = at_each_address();
    questions.extend(Rng::new(seed).many(DRAWN, drawn));
    questions
}
