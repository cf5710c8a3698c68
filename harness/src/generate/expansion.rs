//! Calls expanded in turn over one window: overlaps both ways, gaps around a row's
//! width, places near the window's end, and every combination of refusals.

use super::long::{Shape, log_scaled};
use super::numbers::{bad_gap, edge, gap, junk};
use crate::oracle::{LIST_LIMIT, row_widths};
use crate::protocol::{Argument, Question, Reply};
use crate::rng::Rng;

/// The window that the last accepted call left.
#[derive(Debug, Default)]
pub struct Window {
    bytes: Vec<u64>,
    stamps: Vec<u64>,
}

/// A call with what it finds, before it is written as a question.
pub(super) struct Draft {
    pub(super) kind: u64,
    pub(super) timestamp: u64,
    pub(super) src: u64,
    pub(super) dst: u64,
    pub(super) count: u64,
    pub(super) gap: u64,
    /// Numbers short of the result, of the operation and the access buffer.
    pub(super) short: [usize; 2],
    /// Buffers are made for no more bytes than this; a call of more is refused by 2.
    pub(super) most: u64,
}

impl Window {
    /// The next question and its reply, from which the window goes on.
    pub fn asked(&mut self, rng: &mut Rng) -> (Question, Reply) {
        let large = self.bytes.len() > 1000;
        if self.bytes.is_empty() || rng.once_in(if large { 5 } else { 50 }) {
            self.renew(rng);
        }
        let count = rng.below(71);
        let mut draft = self.draft(rng, count);
        let refusals = refusals(rng);
        let mut window = [self.bytes.clone(), self.stamps.clone()];
        for (bit, number) in [7, 8, 1, 3, 5, 2, 9].into_iter().enumerate() {
            if refusals >> bit & 1 == 1 {
                draft.cause(rng, number, &mut window);
            }
        }
        self.ask(rng, draft, window)
    }

    /// The same over a new window of so many cells, or over the last one, with counts up
    /// to the whole window. By its shape the question meets one refusal, or none.
    pub fn asked_long(
        &mut self,
        rng: &mut Rng,
        shape: Shape,
        cells: Option<usize>,
    ) -> (Question, Reply) {
        if let Some(cells) = cells {
            self.fill(rng, cells);
        }
        let cells = self.bytes.len();
        let count = match rng.bit() {
            0 => cells,
            _ => log_scaled(rng, cells),
        };
        let mut draft = self.draft(rng, count as u64);
        draft.most = cells as u64;
        if shape == Shape::Good && cells == LIST_LIMIT {
            draft.take_all(cells as u64);
        }
        let mut window = [self.bytes.clone(), self.stamps.clone()];
        match shape {
            Shape::Good => {}
            Shape::Bad => {
                let number = rng.pick(&[7, 1, 3, 5, 2]);
                draft.cause(rng, number, &mut window);
            }
            Shape::Cut => window[rng.place(2)].push(0),
            Shape::Short => draft.cause(rng, 9, &mut window),
        }
        self.ask(rng, draft, window)
    }

    /// A call that is drafted; if a refusal is named, one that meets it.
    pub(super) fn asked_for(
        &mut self,
        rng: &mut Rng,
        mut draft: Draft,
        refusal: Option<u64>,
    ) -> (Question, Reply) {
        let mut window = [self.bytes.clone(), self.stamps.clone()];
        if let Some(number) = refusal {
            draft.cause(rng, number, &mut window);
        }
        self.ask(rng, draft, window)
    }

    pub(super) fn cells(&self) -> usize {
        self.bytes.len()
    }

    /// Asks, and goes on from the reply.
    fn ask(&mut self, rng: &mut Rng, draft: Draft, window: [Vec<u64>; 2]) -> (Question, Reply) {
        let question = draft.question(rng, window);
        let reply = question.reply();
        if reply.answer.number == 0 {
            self.bytes = reply.lent[0].clone();
            self.stamps = reply.lent[1].clone();
        }
        (question, reply)
    }

    fn renew(&mut self, rng: &mut Rng) {
        let cells = match rng.below(20) {
            0 => 4096 + rng.place(200),
            1 => rng.place(9),
            _ => 20 + rng.place(140),
        };
        self.fill(rng, cells);
    }

    /// A new window of so many cells.
    pub(super) fn fill(&mut self, rng: &mut Rng, cells: usize) {
        self.bytes = rng.many(cells, |rng| rng.below(256));
        let common = edge(rng);
        self.stamps = rng.many(cells, |rng| if rng.once_in(3) { edge(rng) } else { common });
    }

    /// A call of this count, or less, that the window mostly takes.
    fn draft(&self, rng: &mut Rng, count: u64) -> Draft {
        let cells = self.bytes.len() as u64;
        let count = count.min(cells);
        let gap = gap(rng);
        let kind = rng.below(3);
        // A Set's destination has to fit too, so its count and source leave room.
        let apart = if kind == 1 { gap.min(cells) } else { 0 };
        let count = count.min(cells - apart);
        let last = cells - apart - count;
        let src = if rng.once_in(4) {
            last
        } else {
            rng.below(last + 1)
        };
        let dst = match kind {
            1 => src + gap,
            0 if rng.bit() == 1 => near(rng, src).min(last),
            0 => rng.below(last + 1),
            _ => edge(rng) % (1 << 32),
        };
        let timestamp = if rng.once_in(4) {
            edge(rng)
        } else {
            rng.below(1000)
        };
        Draft {
            kind,
            timestamp,
            src,
            dst,
            count,
            gap,
            short: [0, 0],
            most: 100,
        }
    }
}

/// A set of refusals, a bit each: none, few, or any of the 128 sets.
fn refusals(rng: &mut Rng) -> u64 {
    match rng.below(4) {
        0 => rng.below(128),
        1 if rng.bit() == 1 => 1 << rng.below(7) | 1 << rng.below(7),
        1 => 1 << rng.below(7),
        _ => 0,
    }
}

/// A place less than twenty cells away.
pub(super) fn near(rng: &mut Rng, place: u64) -> u64 {
    (place + rng.below(20)).saturating_sub(rng.below(20))
}

impl Draft {
    /// Every cell of the window, onto itself.
    fn take_all(&mut self, cells: u64) {
        [self.src, self.dst, self.count] = [0, 0, cells];
        if self.kind == 1 {
            self.gap = 0;
        }
    }

    /// Changes the input so that it meets this refusal, if none before it does.
    fn cause(&mut self, rng: &mut Rng, number: u64, window: &mut [Vec<u64>; 2]) {
        match number {
            7 => self.gap = bad_gap(rng),
            8 => spoil_window(rng, window),
            1 => self.timestamp = u64::MAX,
            3 => {
                self.kind = 1;
                self.dst = self
                    .src
                    .wrapping_add(self.gap)
                    .wrapping_add(rng.pick(&[1, u64::MAX]));
            }
            5 => {
                self.kind = 2;
                let past = (1u64 << 32).wrapping_sub(self.count);
                self.dst = rng.pick(&[past, past - 1, past + 1, u64::MAX]);
            }
            2 => self.leave(rng, window[0].len() as u64),
            _ => self.short = rng.pick(&[[1, 0], [0, 1], [1, 1], [16, 29]]),
        }
    }

    /// One cell too far, at the window's end or past 2^64. A Set keeps the distance
    /// of its places, so that it meets 3 only if it did before.
    fn leave(&mut self, rng: &mut Rng, cells: u64) {
        self.count = self.count.max(1);
        let apart = self.dst.wrapping_sub(self.src);
        let past = cells.saturating_sub(self.count) + 1;
        match rng.below(4) {
            0 => self.src = past,
            1 => self.src = u64::MAX - rng.below(self.count),
            2 => self.count = edge(rng).max(cells + 1),
            _ if self.kind == 0 => self.dst = past,
            _ => self.src = past.saturating_sub(self.gap),
        }
        if self.kind == 1 {
            self.dst = self.src.wrapping_add(apart);
        }
    }

    /// Numbers of the two results if the call is accepted. A larger count is refused
    /// by 2, and its result has no size to speak of.
    fn results(&self) -> [usize; 2] {
        let count = self.count.min(self.most);
        let rows = row_widths(self.kind, self.src, self.dst, count).len();
        let accesses = if self.kind == 2 { rows } else { 2 * rows };
        [16 * rows.max(1), 29 * accesses]
    }

    fn question(self, rng: &mut Rng, [bytes, stamps]: [Vec<u64>; 2]) -> Question {
        let kind = if rng.once_in(100) {
            edge(rng)
        } else {
            self.kind
        };
        let spare = rng.place(3) * rng.place(40);
        let results = self.results();
        let [ops, accesses] = [0, 1].map(|buffer| match self.short[buffer] {
            0 => results[buffer] + spare,
            short => results[buffer].saturating_sub(short),
        });
        let numbers = [
            kind,
            self.timestamp,
            self.src,
            self.dst,
            self.count,
            self.gap,
        ];
        let mut arguments: Vec<Argument> = numbers.map(Argument::Number).into();
        arguments.extend([bytes, stamps].map(Argument::List));
        arguments.extend([ops, accesses, 2].map(|length| Argument::List(junk(rng, length))));
        Question::new("collect_copy_ops", arguments)
    }
}

/// Slices of unequal length, or, rarely, too many cells.
fn spoil_window(rng: &mut Rng, [bytes, stamps]: &mut [Vec<u64>; 2]) {
    match rng.below(2000) {
        0 => {
            bytes.resize(LIST_LIMIT + 1, 0);
            stamps.resize(LIST_LIMIT + 1, 0);
        }
        n if n % 2 == 0 => bytes.push(0),
        _ => stamps.push(0),
    }
}
