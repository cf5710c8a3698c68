//! Questions to the function `round_trip`, which is not exported: only its replay program
//! asks it. The answers are what the oracle's steps give, one after the other.

use crate::generate::numbers::{edge, room};
use crate::oracle::records::{ACCESS, HANDED, OPERATION};
use crate::oracle::{self, Answer, COPY_COLUMNS, LIST_LIMIT};
use crate::protocol::{self, Argument, Reply};
use crate::rng::Rng;
use std::collections::BTreeMap;

/// Numbers in a call as read-back writes it.
const CALL: usize = 5;
/// The most cells of a window, but for one too many in one of its slices.
const CELLS: usize = 64;
/// The most records that the accepted calls of a question have.
const RECORDS: usize = 12;
/// Counts of calls, in order, of few rows each.
const COUNTS: [u64; 10] = [0, 1, 1, 1, 2, 8, 8, 9, 16, 17];
/// Room for the records of any calls that are drawn.
const AMPLE: usize = 4096;
/// Questions that are looked at.
const DRAWS: usize = 20_000;

/// A question: the gap, the calls, and the lent lists.
#[derive(Clone, Default)]
struct Trip {
    gap: u64,
    calls: Vec<u64>,
    bytes: Vec<u8>,
    stamps: Vec<u64>,
    ops: Vec<u64>,
    accesses: Vec<u64>,
    table: Vec<u64>,
    ops_back: Vec<u64>,
    calls_back: Vec<u64>,
}

/// What the expansion of all calls comes to.
#[derive(Default)]
struct Expanded {
    records: usize,
    /// The most access records of a call: each has them at the buffer's front.
    accesses: usize,
    /// 0 or the refusal of each call.
    answers: Vec<u64>,
}

impl Expanded {
    fn accepted(&self) -> usize {
        self.answers.iter().filter(|&&number| number == 0).count()
    }

    /// The first refusal, and whether a call before it and one after it are accepted.
    fn first_refusal(&self) -> Option<(u64, [bool; 2])> {
        let place = self.answers.iter().position(|&number| number != 0)?;
        let (before, rest) = self.answers.split_at(place);
        Some((rest[0], [!before.is_empty(), rest.contains(&0)]))
    }
}

/// So many questions that pass and that are refused of each class, of no more numbers
/// than `longest`, with their replies.
pub fn recorded(
    seed: u64,
    [answered, refused]: [usize; 2],
    longest: usize,
) -> Vec<(Vec<Argument>, Reply)> {
    let mut rng = Rng::new(seed);
    let mut kept = Vec::new();
    let mut classes: BTreeMap<[u64; 4], usize> = BTreeMap::new();
    for _ in 0..DRAWS {
        let trip = draw(&mut rng);
        let (arguments, reply) = (trip.arguments(), trip.reply());
        let most = match reply.answer.number {
            0 => answered,
            _ => refused,
        };
        let seen = classes.entry(trip.class(&reply)).or_default();
        if protocol::size(&arguments) <= longest && *seen < most {
            *seen += 1;
            kept.push((arguments, reply));
        }
    }
    kept
}

impl Trip {
    /// The whole calls in turn over the window, each into the rest of `ops`; refused ones
    /// are left out.
    fn expand(&mut self) -> Expanded {
        let mut all = Expanded::default();
        for call in self.calls.chunks_exact(HANDED) {
            let mut counts = [0; 2];
            let answer = oracle::collect_copy_ops(
                call[0],
                call[1],
                call[2],
                call[3],
                call[4],
                self.gap,
                &mut self.bytes,
                &mut self.stamps,
                &mut self.ops[OPERATION * all.records..],
                &mut self.accesses,
                &mut counts,
            );
            let [records, accesses] = counts.map(|count| count as usize);
            all.records += records;
            all.accesses = all.accesses.max(accesses);
            all.answers.push(answer.number);
        }
        all
    }

    /// 8 and 10 of the list of calls itself.
    fn list(&self) -> Result<(), Answer> {
        let (whole, cut) = (self.calls.len() / HANDED, self.calls.len() % HANDED);
        if whole + usize::from(cut != 0) > LIST_LIMIT {
            return Err(refused(8, 0));
        }
        if cut != 0 {
            return Err(refused(10, whole));
        }
        Ok(())
    }

    /// The answer, and the numbers of rows and calls; or the first step's refusal.
    fn steps(&mut self) -> Result<(Answer, [u64; 2]), Answer> {
        self.list()?;
        let records = OPERATION * self.expand().records;
        let ops = &self.ops[..records];
        let rows = accepted(oracle::generate_copy_trace(ops, &mut self.table))?.value;
        let written = &self.table[..COPY_COLUMNS * rows as usize];
        accepted(oracle::chain_check(self.gap, written))?;
        let mut counts = [0; 2];
        let [ops, calls] = [&mut self.ops_back, &mut self.calls_back];
        let read = oracle::read_back(self.gap, written, ops, calls, &mut counts);
        Ok((accepted(read)?, [rows, counts[1]]))
    }

    /// A refusal leaves every list as it was.
    fn reply(&self) -> Reply {
        let mut after = self.clone();
        match after.steps() {
            Ok((answer, counts)) => after.reply_with(answer, counts),
            Err(refusal) => self.reply_with(refusal, [0; 2]),
        }
    }

    fn reply_with(&self, answer: Answer, counts: [u64; 2]) -> Reply {
        let mut lent = vec![counts.to_vec()];
        lent.extend(self.lent());
        Reply { answer, lent }
    }

    fn lent(&self) -> [Vec<u64>; 7] {
        let bytes = self.bytes.iter().copied().map(u64::from).collect();
        let lists = [
            &self.stamps,
            &self.ops,
            &self.accesses,
            &self.table,
            &self.ops_back,
            &self.calls_back,
        ];
        let [stamps, ops, accesses, table, ops_back, calls_back] = lists.map(Vec::clone);
        [bytes, stamps, ops, accesses, table, ops_back, calls_back]
    }

    fn arguments(&self) -> Vec<Argument> {
        let mut arguments = vec![self.gap.into(), self.calls.clone().into()];
        arguments.extend(self.lent().map(Argument::List));
        arguments
    }

    /// What makes two questions alike. Of those whose last call is cut: how many whole ones
    /// it follows. Of those refused otherwise: which lists are short. Of those that pass:
    /// the first refused call's number, and whether one before it and one after it are
    /// accepted; without a refused call the table's rows, and of the shortest tables the
    /// first call's kind.
    fn class(&self, reply: &Reply) -> [u64; 4] {
        let all = self.clone().expand();
        let short = |list: &[u64], result| u64::from(list.len() < result);
        let table = short(&self.table, COPY_COLUMNS * rows_for(all.records));
        let ops = short(&self.ops_back, OPERATION * all.records);
        match (reply.answer.number, all.first_refusal(), reply.lent[0][0]) {
            (0, Some((refusal, around)), _) => {
                let [before, after] = around.map(u64::from);
                [0, refusal, before, after]
            }
            (0, None, 4) if all.records != 0 => [0, 0, 4 + self.calls[0], 0],
            (0, None, rows) => [0, 0, rows.min(4 * all.records as u64), 0],
            (10, _, _) => [10, reply.answer.place.min(2), 0, 0],
            (number, _, _) => [number, table, ops, 0],
        }
    }
}

fn accepted(answer: Answer) -> Result<Answer, Answer> {
    match answer.number {
        0 => Ok(answer),
        _ => Err(answer),
    }
}

fn refused(number: u64, place: usize) -> Answer {
    Answer {
        number,
        place: place as u64,
        value: 0,
    }
}

fn rows_for(records: usize) -> usize {
    records.next_power_of_two().max(4)
}

/// A few calls over a small window, and lists that are mostly as long as what is written.
fn draw(rng: &mut Rng) -> Trip {
    loop {
        let mut trip = window(rng);
        let cells = trip.bytes.len().min(trip.stamps.len()) as u64;
        for _ in 0..rng.pick(&[0, 1, 1, 2, 2, 2, 3, 3, 4]) {
            let call = call(rng, trip.gap, cells);
            trip.calls.extend(call);
        }
        if rng.once_in(4) {
            let cut = 1 + rng.place(HANDED - 1);
            trip.calls.extend(junk(rng, cut));
        }
        if fill(rng, &mut trip) {
            return trip;
        }
    }
}

/// A gap and a window, whose slices are now and then of unequal length (8).
fn window(rng: &mut Rng) -> Trip {
    let cells = match rng.below(24) {
        0 => CELLS,
        1 => rng.place(8),
        _ => 8 + rng.place(13),
    };
    let stamp = if rng.once_in(6) {
        edge(rng)
    } else {
        rng.below(10)
    };
    let mut trip = Trip {
        gap: rng.pick(&[0, 1, 3, 7, 8, 8, 9, u64::from(u32::MAX)]),
        bytes: rng.many(cells, |rng| rng.below(256) as u8),
        stamps: rng.many(cells, |rng| {
            if rng.once_in(3) {
                rng.below(100)
            } else {
                stamp
            }
        }),
        ..Trip::default()
    };
    match rng.below(24) {
        0 => trip.bytes.push(0),
        1 => trip.stamps.push(0),
        _ => {}
    }
    trip
}

/// A call that the window mostly takes.
fn call(rng: &mut Rng, gap: u64, cells: u64) -> [u64; HANDED] {
    let kind = rng.below(3);
    // A Set's destination has to fit too, so its count and source leave room.
    let apart = if kind == 1 { gap.min(cells) } else { 0 };
    let fitting = COUNTS.partition_point(|&count| count <= cells - apart);
    let count = rng.pick(&COUNTS[..fitting]);
    let last = cells - apart - count;
    let src = rng.below(last + 1);
    let dst = match kind {
        0 => rng.below(last + 1),
        1 => src + gap,
        _ => rng.pick(&[0, 77, (1 << 31) - 1, (1 << 32) - 1 - count]),
    };
    let stamp = if rng.once_in(8) {
        edge(rng)
    } else {
        rng.below(1000)
    };
    let call = [kind, stamp, src, dst, count];
    if rng.once_in(4) {
        spoiled(rng, call, gap, last)
    } else {
        call
    }
}

/// The same call made so that it is refused: 10, 1, 2, 3, 5.
fn spoiled(rng: &mut Rng, call: [u64; HANDED], gap: u64, last: u64) -> [u64; HANDED] {
    let [kind, stamp, src, dst, count] = call;
    match rng.below(5) {
        0 => [rng.pick(&[3, 4, u64::MAX]), stamp, src, dst, count],
        1 => [kind, u64::MAX, src, dst, count],
        2 if kind == 1 => [1, stamp, last + 1, last + 1 + gap, count.max(1)],
        2 => [kind, stamp, last + 1, dst, count.max(1)],
        3 => [1, stamp, src, src + gap + 1, count],
        _ => [2, stamp, src, (1 << 32) - count, count],
    }
}

/// The lists that are written, by what the calls need. False if they need too much.
fn fill(rng: &mut Rng, trip: &mut Trip) -> bool {
    let mut ample = trip.clone();
    ample.ops = vec![0; AMPLE];
    ample.accesses = vec![0; AMPLE];
    let need = ample.expand();
    // Where one of these is short, a call is refused (9).
    trip.ops = lent(rng, OPERATION * need.records);
    trip.accesses = lent(rng, ACCESS * need.accesses);
    let need = trip.clone().expand();
    trip.table = lent(rng, COPY_COLUMNS * rows_for(need.records));
    trip.ops_back = lent(rng, OPERATION * need.records);
    trip.calls_back = lent(rng, CALL * need.accepted());
    need.records <= RECORDS
}

/// A list for a result of this length: as long, little more, or, now and then, short.
fn lent(rng: &mut Rng, result: usize) -> Vec<u64> {
    let length = match rng.below(8) {
        0 => room(rng, result),
        _ => result + rng.place(3),
    };
    junk(rng, length)
}

/// Numbers of two digits that show what must be kept.
fn junk(rng: &mut Rng, length: usize) -> Vec<u64> {
    let base = 10 + rng.below(40);
    (0..length as u64).map(|place| base + place % 50).collect()
}
