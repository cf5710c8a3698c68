//! Questions with lists of every length from 0 to 65,537, drawn on a log scale. They
//! come between the short ones and draw from numbers of their own, so that the short
//! questions of a seed stay what they are.

use super::expansion::Window;
use super::lists::{self, Rows};
use super::numbers::{gap, junk};
use super::records::{self, Kind};
use super::{join, load, lookups, operands, programs, rows};
use crate::oracle::records::{ACCESS, HANDED, REGISTER};
use crate::oracle::{LIST_LIMIT, route_by_words};
use crate::protocol::{Argument, Question, Reply};
use crate::rng::Rng;

/// What a long question is: good throughout, or with one thing amiss.
#[derive(Debug, Clone, Copy, PartialEq, Eq)]
pub enum Shape {
    Good,
    /// One bad record, row or number, anywhere.
    Bad,
    /// Not of whole records or rows; of a window, slices of unequal length.
    Cut,
    /// A buffer one number short; of a chain check, a last call without its last row.
    Short,
}

use Shape::{Bad, Cut, Good, Short};

/// The lengths around the limit.
pub const EDGES: [usize; 3] = [LIST_LIMIT - 1, LIST_LIMIT, LIST_LIMIT + 1];

/// What is asked first.
const FORCED: [(usize, Shape); 8] = [
    (EDGES[1], Good),
    (EDGES[0], Good),
    (EDGES[2], Good),
    (EDGES[1], Bad),
    (EDGES[1], Short),
    (EDGES[0], Cut),
    (EDGES[1], Cut),
    (EDGES[1], Bad),
];

/// Records that a short question saves up for the next long one. A long question of n
/// records comes once n are saved, which bounds the work: on the average a question has
/// no more than this beside its own few. Bytes of an input cost little beside the start
/// of the program.
fn saved_by(kind: &str) -> usize {
    match kind {
        "callcheck" => 1024,
        _ => 16,
    }
}

/// The long questions of one kind.
pub struct Long {
    rng: Rng,
    drawn: usize,
    saved: usize,
    next: (usize, Shape),
    window: Window,
}

impl Long {
    pub fn new(seed: u64) -> Self {
        Self {
            rng: Rng::new(!seed),
            drawn: 0,
            saved: 0,
            next: FORCED[0],
            window: Window::default(),
        }
    }

    /// Whether all that is asked first has been asked.
    pub fn is_past_forced(&self) -> bool {
        self.drawn >= FORCED.len()
    }

    /// The next long question of this kind, if it is time for one and the kind has lists.
    pub fn question(&mut self, kind: &str) -> Option<(Question, Option<Reply>)> {
        let (length, shape) = self.next;
        if self.is_past_forced() && self.saved < length {
            self.saved += saved_by(kind);
            return None;
        }
        let renew = !self.is_past_forced() || !self.rng.once_in(3);
        self.saved = self.saved.saturating_sub(length);
        self.drawn += 1;
        self.next = match FORCED.get(self.drawn) {
            Some(forced) => *forced,
            None => drawn(&mut self.rng),
        };
        if kind == "collect_copy_ops" {
            let cells = if renew { Some(length) } else { None };
            let (question, reply) = self.window.asked_long(&mut self.rng, shape, cells);
            return Some((question, Some(reply)));
        }
        question(&mut self.rng, kind, length, shape).map(|question| (question, None))
    }
}

/// A length and a shape, mostly good.
fn drawn(rng: &mut Rng) -> (usize, Shape) {
    let length = match rng.below(12) {
        0 => rng.pick(&EDGES),
        _ => log_scaled(rng, EDGES[2]),
    };
    let shape = match rng.below(10) {
        0 | 1 => Bad,
        2 => Cut,
        3 => Short,
        _ => Good,
    };
    (length, shape)
}

/// A length up to the last, each number of binary digits as often as the others.
pub fn log_scaled(rng: &mut Rng, last: usize) -> usize {
    let digits = rng.below(u64::from(usize::BITS - last.leading_zeros()) + 1);
    let length = match digits {
        0 => 0,
        _ => (1 << (digits - 1)) + rng.below(1 << (digits - 1)),
    };
    match length as usize {
        length if length <= last => length,
        // Of the last number of digits there may be few: each as often as the others.
        _ => last - rng.place(last + 1 - (1 << (digits - 1))),
    }
}

/// A place in a list that is not empty: among the last three, or anywhere.
fn place(rng: &mut Rng, length: usize) -> usize {
    match rng.bit() {
        0 => length - 1 - rng.place(length.min(3)),
        _ => rng.place(length),
    }
}

/// None for a kind without lists.
fn question(rng: &mut Rng, kind: &str, length: usize, shape: Shape) -> Option<Question> {
    let question = match kind {
        "route_accesses" => route(rng, length, shape),
        lookups::LOOKUPS => looked_up(rng, length, shape),
        "chain_check" => check(rng, length, shape),
        "read_back" => read_back(rng, length, shape),
        "add_pair" => operands::long_question(rng, length),
        "callcheck" => programs::long_question(rng, length),
        "generate_load" => calls(rng, length, shape),
        join::JOIN => joined(rng, length, shape),
        _ if kind.starts_with("generate_") => table(rng, kind, length, shape),
        _ if kind.ends_with("_residue") => rows::long_question(rng, kind, length),
        _ => return None,
    };
    Some(question)
}

/// So many records of all kinds, by the shape one of them bad, or a part of one more.
fn list(rng: &mut Rng, length: usize, shape: Shape, kind: &Kind) -> Vec<u64> {
    let mut records = rng.many(length, kind.make);
    if shape == Bad && length > 0 {
        let place = place(rng, length);
        (kind.spoil)(rng, &mut records[place]);
    }
    let mut list = records.concat();
    if shape == Cut {
        let more = (kind.make)(rng);
        list.extend(&more[..1 + rng.place(kind.width - 1)]);
    }
    list
}

/// The length of a buffer: one short, as long as the result, or longer.
fn buffer(rng: &mut Rng, result: usize, shape: Shape) -> Argument {
    let length = match shape {
        Short => result.saturating_sub(1),
        _ => result + rng.place(3) * rng.place(40),
    };
    junk(rng, length).into()
}

fn table(rng: &mut Rng, name: &str, length: usize, shape: Shape) -> Question {
    let (kind, columns) = records::kind_of_table(name);
    let list = list(rng, length, shape, &kind);
    // A list past the limit is refused, whatever the table.
    let rows = records::rows(length.min(LIST_LIMIT));
    let table = buffer(rng, rows * columns, shape);
    Question::new(name, vec![list.into(), table])
}

/// A load of so many calls.
fn calls(rng: &mut Rng, length: usize, shape: Shape) -> Question {
    let out = buffer(rng, HANDED * length, shape);
    load::asked(rng.number(), length as u64, out)
}

/// A list of so many calls and another, in either place; by the shape one call is bad or out of
/// order, or a part of one more stands behind.
fn joined(rng: &mut Rng, length: usize, shape: Shape) -> Question {
    let [first, second] = join::beside(rng, length, |rng, start| {
        let mut calls = join::in_order(rng, start, length);
        if shape == Bad && length > 0 {
            join::spoil(rng, &mut calls);
        }
        let mut list = calls.concat();
        if shape == Cut {
            list.extend(vec![0; 1 + rng.place(HANDED - 1)]);
        }
        list
    });
    let joined = buffer(rng, first.len() + second.len(), shape);
    join::asked(first, second, joined)
}

fn route(rng: &mut Rng, length: usize, shape: Shape) -> Question {
    let accesses = list(rng, length, shape, &records::ROUTABLE);
    let mut counts = [0; 3];
    let good = |record: &&[u64]| [1, 2, 4, 8].contains(&record[11]);
    for record in accesses.chunks_exact(ACCESS).filter(good) {
        counts[route_by_words(record) as usize] += 1;
    }
    let short = rng.place(3);
    let mut arguments: Vec<Argument> = vec![accesses.into()];
    for (place, width) in [REGISTER, ACCESS, ACCESS].into_iter().enumerate() {
        let shape = if place == short { shape } else { Good };
        arguments.push(buffer(rng, counts[place] * width, shape));
    }
    arguments.push(junk(rng, 3).into());
    Question::new("route_accesses", arguments)
}

fn looked_up(rng: &mut Rng, length: usize, shape: Shape) -> Question {
    let accesses = list(rng, length, shape, &lookups::LOOKED_UP);
    let pairs = lookups::PAIR * lookups::pairs_of(&accesses);
    let buffer = buffer(rng, pairs, shape);
    Question::new(lookups::LOOKUPS, vec![accesses.into(), buffer])
}

/// A list of so many rows under a gap; `Short` leaves its last call without an end.
fn chain(rng: &mut Rng, length: usize, shape: Shape) -> (u64, Rows) {
    let gap = gap(rng);
    let mut list = match shape {
        Short => lists::unended(rng, gap, length),
        _ => lists::sound(rng, gap, length),
    };
    if shape == Bad && length > 0 {
        let place = place(rng, length);
        lists::damage(rng, gap, &mut list, place);
    }
    (gap, list)
}

fn numbers_of(rng: &mut Rng, list: &Rows, shape: Shape) -> Vec<u64> {
    let mut numbers = list.concat();
    if shape == Cut {
        let more = 1 + rng.place(40);
        numbers.extend(rng.many(more, |rng| rng.below(2)));
    }
    numbers
}

fn check(rng: &mut Rng, length: usize, shape: Shape) -> Question {
    let (gap, list) = chain(rng, length, shape);
    let rows = numbers_of(rng, &list, shape);
    Question::new("chain_check", vec![gap.into(), rows.into()])
}

/// `Short` is a short buffer, or now and then a list without an end.
fn read_back(rng: &mut Rng, length: usize, shape: Shape) -> Question {
    let unended = shape == Short && rng.once_in(4);
    let (gap, list) = match shape {
        Short if !unended => chain(rng, length, Good),
        _ => chain(rng, length, shape),
    };
    let live = list.iter().filter(|row| row[38] == 1);
    let results = [
        16 * live.clone().count(),
        5 * live.filter(|row| row[32] == 1).count(),
    ];
    let rows = numbers_of(rng, &list, shape);
    let short = rng.place(2);
    let mut arguments: Vec<Argument> = vec![gap.into(), rows.into()];
    for (place, result) in results.into_iter().enumerate() {
        let shape = if place == short { shape } else { Good };
        arguments.push(buffer(rng, result, shape));
    }
    arguments.push(junk(rng, 2).into());
    Question::new("read_back", arguments)
}
