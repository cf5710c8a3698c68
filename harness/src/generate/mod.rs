//! Questions from a seed.

pub mod calls;
pub mod carries;
pub mod edges;
mod expansion;
pub mod join;
pub mod lists;
pub mod load;
pub mod long;
pub mod lookups;
pub mod numbers;
mod operands;
pub mod programs;
pub mod records;
mod registers;
mod row_check;
pub mod rows;
mod solve;

use crate::protocol::{FUNCTIONS, Question, Reply};
use crate::rng::Rng;
use edges::Edges;
use long::Long;
use std::collections::VecDeque;

/// Questions of one kind: a name of `FUNCTIONS`, or `all` for each in turn.
pub struct Generator {
    kinds: Vec<&'static str>,
    asked: usize,
    rng: Rng,
    window: expansion::Window,
    registers: registers::Registers,
    /// Asked before all others.
    first: VecDeque<Question>,
    /// Lists of all lengths between the short ones, or none.
    long: Option<Long>,
    /// Calls around the edges of pages between the others, or none.
    edges: Option<Edges>,
}

impl Generator {
    /// None if there is no such kind.
    pub fn new(kind: &str, seed: u64) -> Option<Self> {
        let named = |name: &str| kind == "all" || kind == name;
        let kinds: Vec<_> = FUNCTIONS
            .iter()
            .map(|f| f.0)
            .filter(|name| named(name))
            .collect();
        (!kinds.is_empty()).then(|| Self {
            kinds,
            asked: 0,
            rng: Rng::new(seed),
            window: Default::default(),
            registers: Default::default(),
            first: VecDeque::new(),
            long: None,
            edges: None,
        })
    }

    /// The same questions of one function, between them lists of all lengths and, to the
    /// expansion, calls around the edges of pages, and these before them.
    pub fn of_all_lengths(kind: &str, seed: u64, first: Vec<Question>) -> Option<Self> {
        Self::new(kind, seed).map(|short| Self {
            first: first.into(),
            long: Some(Long::new(seed)),
            edges: (kind == "collect_copy_ops").then(|| Edges::new(seed)),
            ..short
        })
    }

    /// Whether all questions have been asked that come in every run.
    pub fn is_past_forced(&self) -> bool {
        self.first.is_empty() && self.long.as_ref().is_none_or(Long::is_past_forced)
    }

    pub fn question(&mut self) -> Question {
        self.next().0
    }

    /// A question and the oracle's reply.
    pub fn asked(&mut self) -> (Question, Reply) {
        let (question, reply) = self.next();
        let reply = reply.unwrap_or_else(|| question.reply());
        (question, reply)
    }

    /// The reply comes too where the next question goes on from it.
    fn next(&mut self) -> (Question, Option<Reply>) {
        let kind = self.kinds[self.asked % self.kinds.len()];
        if let Some(question) = self.first.pop_front() {
            return (question, None);
        }
        if let Some(asked) = self.long.as_mut().and_then(|long| long.question(kind)) {
            return asked;
        }
        if let Some((question, reply)) = self.edges.as_mut().and_then(Edges::question) {
            return (question, Some(reply));
        }
        self.asked += 1;
        let in_turn = match kind {
            "collect_copy_register_ops" => self.registers.asked(&mut self.rng),
            "collect_copy_ops" => self.window.asked(&mut self.rng),
            _ => return (question(&mut self.rng, kind), None),
        };
        (in_turn.0, Some(in_turn.1))
    }
}

/// A question to a function that goes on from no reply.
fn question(rng: &mut Rng, kind: &str) -> Question {
    match kind {
        "field_add" | "field_sub" | "field_mul" => field_question(rng, kind),
        "add_pair" => operands::question(rng),
        "route_accesses" => records::route_question(rng),
        lookups::LOOKUPS => lookups::question(rng),
        "push_reg_access" => records::push_question(rng),
        "new_register_state" => registers::new_question(rng),
        "chain_check" => lists::check_question(rng),
        "row_check" => row_check::question(rng),
        "read_back" => lists::read_question(rng),
        "generate_load" => load::question(rng),
        join::JOIN => join::question(rng),
        "callcheck" => programs::question(rng),
        _ if kind.ends_with("residue") => rows::residue_question(rng, kind),
        _ => records::table_question(rng, kind),
    }
}

/// Elements at the edges, and numbers that are none in either place.
fn field_question(rng: &mut Rng, name: &str) -> Question {
    let mut number = || match rng.below(12) {
        0 => numbers::non_element(rng),
        _ => numbers::element(rng),
    };
    Question::new(name, vec![number().into(), number().into()])
}
