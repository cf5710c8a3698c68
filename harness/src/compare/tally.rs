//! What one function's run has seen, and what it should have.

use crate::generate::carries;
use crate::generate::edges;
use crate::generate::join::{self, JOIN};
use crate::generate::long::EDGES;
use crate::generate::lookups::{self, LOOKUPS, PAIR};
use crate::oracle::records::{ACCESS, HANDED, OPERATION, REGISTER};
use crate::oracle::{COPY_COLUMNS, LIST_LIMIT};
use crate::protocol::{Argument, FUNCTIONS, Question, Reply};
use std::collections::BTreeSet;
use std::fmt::Write as _;

/// A list of more records than this is a long one.
const SHORT: usize = 1000;

/// Refusals go up to 20.
const ANSWERS: usize = 21;

/// So many loads from different numbers are compared at least.
const SEEDS: usize = 10_000;

/// The residue that is 0 in every row in range whose residues 14 and 15 are 0: the
/// refusal 16 never names it.
const NEVER_NAMED: usize = 31;

pub struct Tally {
    name: &'static str,
    pub cases: u64,
    pub mismatches: u64,
    /// By number; 0 is no refusal.
    answers: [u64; ANSWERS],
    /// Of the refusals 16, by residue.
    residues: [u64; 40],
    /// Of the row check's refusals 14, by place.
    places: [u64; COPY_COLUMNS],
    /// Rows that were asked for all their residues, beside the one in the question.
    pub whole_rows: u64,
    /// Calls that found a window or a state just as our call before had left it.
    pub in_turn: u64,
    /// Lists of each of the lengths around the limit, and all long ones.
    edges: [u64; 3],
    long: u64,
    /// Calls that took the whole of a window of 65,536 cells and were accepted.
    whole_windows: u64,
    /// Of the general table's maker, where it made rows: accesses at each of the addresses
    /// where CARRY changes, and the high words of these.
    carries: [u64; carries::ADDRESSES],
    high_words: BTreeSet<u64>,
    /// The first numbers of the loads that were made.
    seeds: BTreeSet<u64>,
    /// Accepted calls that an edge cuts into other rows, and their kinds, edges and gaps.
    otherwise_cut: u64,
    met: BTreeSet<[u64; 3]>,
    /// The pairs that were written, and lists of which some pair is not of the record at its
    /// own place.
    pairs: BTreeSet<[u64; PAIR]>,
    displaced: u64,
    /// Joined lists with a stamp that is in both; pairs of lists with more than one thing to
    /// refuse; and by which list each number refused.
    shared: u64,
    several: u64,
    by_list: BTreeSet<(u64, usize)>,
}

impl Tally {
    pub fn new(name: &'static str) -> Self {
        Self {
            name,
            cases: 0,
            mismatches: 0,
            answers: [0; ANSWERS],
            residues: [0; 40],
            places: [0; COPY_COLUMNS],
            whole_rows: 0,
            in_turn: 0,
            edges: [0; 3],
            long: 0,
            whole_windows: 0,
            carries: [0; carries::ADDRESSES],
            high_words: BTreeSet::new(),
            seeds: BTreeSet::new(),
            otherwise_cut: 0,
            met: BTreeSet::new(),
            pairs: BTreeSet::new(),
            displaced: 0,
            shared: 0,
            several: 0,
            by_list: BTreeSet::new(),
        }
    }

    /// Counts a question by the oracle's reply.
    pub fn saw(&mut self, question: &Question, reply: &Reply) {
        self.cases += 1;
        let number = match question.name() {
            "callcheck" => reply.verdict()[0],
            _ => reply.answer.number,
        };
        self.answers[number as usize] += 1;
        if number == 16 {
            self.residues[reply.answer.value as usize] += 1;
        }
        if number == 14 && self.name == "row_check" {
            self.places[reply.answer.place as usize] += 1;
        }
        if let ("generate_load", 0, Argument::Number(s)) =
            (self.name, number, &question.arguments[0])
        {
            self.seeds.insert(*s);
        }
        let Some(length) = length(question) else {
            return;
        };
        self.long += u64::from(length > SHORT);
        for (edge, times) in EDGES.into_iter().zip(&mut self.edges) {
            *times += u64::from(edge == length);
        }
        if self.name == "collect_copy_ops" && number == 0 {
            let all = Argument::Number(LIST_LIMIT as u64);
            self.whole_windows += u64::from(question.arguments[4] == all);
            self.saw_rows(question, &reply.lent[2]);
        }
        if self.name == carries::MAKER && number == 0 {
            self.saw_addresses(question);
        }
        if self.name == LOOKUPS && number == 0 {
            self.saw_pairs(question, reply);
        }
        if self.name == JOIN {
            self.saw_lists(question, number);
        }
    }

    /// Two lists to join: what of them could be refused, and which list was.
    fn saw_lists(&mut self, question: &Question, number: u64) {
        let lists: Vec<&[u64]> = question.lists(false).map(Vec::as_slice).collect();
        let refused = [lists[0], lists[1]].map(join::refused);
        self.several += u64::from(refused.iter().flatten().filter(|&&by| by).count() > 1);
        match join::REFUSALS.iter().position(|&by| by == number) {
            Some(by) => _ = self.by_list.insert((number, usize::from(!refused[0][by]))),
            None => self.shared += u64::from(number == 0 && join::shared([lists[0], lists[1]])),
        }
    }

    /// What the two lists should have been and were not.
    fn unjoined(&self) -> Vec<String> {
        let mut faults = Vec::new();
        for (list, which) in ["first", "second"].into_iter().enumerate() {
            for number in join::REFUSALS {
                if !self.by_list.contains(&(number, list)) {
                    faults.push(format!("{JOIN}: never {number} of the {which} list"));
                }
            }
        }
        if 4 * self.shared < self.answers[0] {
            faults.push(format!("{JOIN}: few joined lists with a stamp of both"));
        }
        if 20 * self.several < self.cases {
            faults.push(format!("{JOIN}: few pairs with several things to refuse"));
        }
        faults
    }

    /// An answer that counts more pairs than the list can hold is the comparison's to find.
    fn saw_pairs(&mut self, question: &Question, reply: &Reply) {
        let count = reply.answer.value as usize;
        let written = reply.lent[0].chunks_exact(PAIR).take(count);
        self.pairs.extend(written.map(|pair| [pair[0], pair[1]]));
        let front = |list: &Vec<u64>| {
            let records = list.chunks_exact(ACCESS).take(count);
            lookups::pairs_of(&records.collect::<Vec<_>>().concat())
        };
        let mut fronts = question.lists(false).map(front);
        self.displaced += u64::from(fronts.any(|pairs| pairs < count));
    }

    /// What the pairs that were written should have been and were not.
    fn unpaired(&self) -> Vec<String> {
        let mut faults = Vec::new();
        for pair in [[0, 0], [255, 255]] {
            if !self.pairs.contains(&pair) {
                faults.push(format!("{LOOKUPS}: never the pair {pair:?}"));
            }
        }
        for (place, byte) in [(0, "low"), (1, "high")] {
            let seen: BTreeSet<u64> = self.pairs.iter().map(|pair| pair[place]).collect();
            if seen.len() != 256 {
                faults.push(format!("{LOOKUPS}: {} {byte} bytes of 256", seen.len()));
            }
        }
        if 4 * self.displaced < self.answers[0] {
            faults.push(format!(
                "{LOOKUPS}: most pairs are of the record at their own place"
            ));
        }
        faults
    }

    fn saw_addresses(&mut self, question: &Question) {
        let accesses = question
            .lists(false)
            .flat_map(|list| list.chunks_exact(ACCESS));
        for address in accesses.map(|access| access[1]) {
            if let Some(place) = carries::place(address) {
                self.carries[place] += 1;
                self.high_words.insert(address >> 32);
            }
        }
    }

    /// Looks at the widths of an accepted call's rows: without an edge those of 8 come first.
    fn saw_rows(&mut self, question: &Question, ops: &[u64]) {
        let number = |place: usize| match question.arguments[place] {
            Argument::Number(number) => number,
            Argument::List(_) => unreachable!("a call's numbers come first"),
        };
        let [kind, src, dst, count, gap] = [0, 2, 3, 4, 5].map(number);
        let mut eights = ops.chunks_exact(OPERATION).take(count as usize / 8);
        if eights.all(|record| record[4] == 8) {
            return;
        }
        self.otherwise_cut += 1;
        for edge in edges::inside(kind, src, dst, count) {
            self.met.insert([kind, edge, gap]);
        }
    }

    /// Which kinds of call did not meet which edge under which gap.
    fn unmet(&self) -> impl Iterator<Item = [u64; 3]> {
        let all = (0..3).flat_map(|kind| edges::EDGES.map(|edge| [kind, edge]));
        let all = all.flat_map(|[kind, edge]| edges::GAPS.map(|gap| [kind, edge, gap]));
        all.filter(|met| !self.met.contains(met))
    }

    /// What should have occurred and did not, or occurred and should not have.
    pub fn missing(&self) -> Vec<String> {
        let name = self.name;
        let refusals = FUNCTIONS
            .iter()
            .find(|f| f.0 == name)
            .map_or(&[][..], |f| f.2);
        let mut faults = Vec::new();
        for (number, &times) in self.answers.iter().enumerate() {
            let listed = number == 0 || refusals.contains(&(number as u64));
            match (listed, times) {
                (true, 0) if number == 0 => faults.push(format!("{name}: never answered")),
                (true, 0) => faults.push(format!("{name}: never refused by {number}")),
                (false, 1..) => faults.push(format!("{name}: refused by {number}")),
                _ => {}
            }
        }
        for (edge, times) in EDGES.into_iter().zip(self.edges) {
            if times == 0 && self.has_lists() {
                faults.push(format!("{name}: no list of {edge}"));
            }
        }
        if self.whole_windows == 0 && name == "collect_copy_ops" {
            faults.push(format!(
                "{name}: no call of a whole window of {LIST_LIMIT} cells"
            ));
        }
        if name == "collect_copy_ops" {
            let unmet = self.unmet().map(|[kind, edge, gap]| {
                format!("{name}: no call of kind {kind} cut at {edge} under the gap {gap}")
            });
            faults.extend(unmet);
            if 3 * self.otherwise_cut < self.cases {
                faults.push(format!("{name}: fewer than a third cut at an edge"));
            }
        }
        if name == "generate_load" && self.seeds.len() < SEEDS {
            faults.push(format!("{name}: fewer than {SEEDS} seeds"));
        }
        if name == "row_check" {
            faults.extend(self.unnamed());
        }
        if name == LOOKUPS {
            faults.extend(self.unpaired());
        }
        if name == JOIN {
            faults.extend(self.unjoined());
        }
        if name == carries::MAKER {
            let seen = carries::HIGH_WORDS.map(|high| self.high_words.contains(&high));
            if self.carries.contains(&0) || seen.contains(&false) {
                faults.push(format!("{name}: not every address where CARRY changes"));
            }
        }
        faults
    }

    /// The places and residues that the row check should have named and did not.
    fn unnamed(&self) -> Vec<String> {
        let unseen = |(index, &times): (usize, &u64)| (times == 0).then_some(index);
        let places = self.places.iter().enumerate().filter_map(unseen);
        let residues = self.residues.iter().enumerate().filter_map(unseen);
        let places = places.map(|place| format!("row_check: never 14 at place {place}"));
        let residues = residues.filter(|&residue| residue != NEVER_NAMED);
        let residues = residues.map(|residue| format!("row_check: never 16 by residue {residue}"));
        places.chain(residues).collect()
    }

    fn has_lists(&self) -> bool {
        unit(self.name).is_some()
    }

    pub fn text(&self) -> String {
        let Self {
            name,
            cases,
            mismatches,
            answers,
            ..
        } = self;
        let mut text = format!("{name}: {cases} cases, {mismatches} mismatches");
        let _ = write!(text, "; answered {}", answers[0]);
        for (number, times) in answers.iter().enumerate().skip(1) {
            if *times > 0 {
                let _ = write!(text, ", refused by {number}: {times}");
            }
        }
        text.push('\n');
        if self.has_lists() {
            let [before, at, past] = self.edges;
            let long = self.long;
            let _ = writeln!(
                text,
                "    lists of more than {SHORT}: {long}, of 65,535, 65,536 and 65,537: {before}, {at}, {past}"
            );
        }
        if answers[16] > 0 {
            let _ = writeln!(text, "    16 by residue, from 0 on: {:?}", self.residues);
        }
        if self.places != [0; COPY_COLUMNS] {
            let _ = writeln!(text, "    14 by place, from 0 on: {:?}", self.places);
        }
        if !self.high_words.is_empty() {
            let (carries, high) = (self.carries, self.high_words.len());
            let _ = writeln!(
                text,
                "    accesses at 2^32 - 10 to 2^32 + 2, by low word: {carries:?}; high words: {high}"
            );
        }
        let lines = [
            (self.seeds.len() as u64, "loads from different numbers"),
            (
                self.whole_windows,
                "calls of a whole window of 65,536 cells",
            ),
            (self.otherwise_cut, "calls cut into other rows at an edge"),
            (self.pairs.len() as u64, "different pairs"),
            (
                self.displaced,
                "lists with a pair that is not of the record at its place",
            ),
            (self.shared, "joined lists with a stamp that is in both"),
            (self.several, "pairs of lists with several things to refuse"),
            (self.whole_rows, "rows asked for all their residues"),
            (self.in_turn, "in turn over what the call before left"),
        ];
        for (times, what) in lines.into_iter().filter(|line| line.0 > 0) {
            let _ = writeln!(text, "    {what}: {times}");
        }
        text
    }
}

/// Which argument is the function's list, and how many numbers its records have.
fn unit(name: &str) -> Option<(usize, usize)> {
    let unit = match name {
        "generate_copy_trace" => (0, OPERATION),
        "generate_memw_register_trace" => (0, REGISTER),
        "generate_memw_trace" | "generate_memw_aligned_trace" | "route_accesses" | LOOKUPS => {
            (0, ACCESS)
        }
        "chain_check" | "read_back" => (1, 41),
        "collect_copy_ops" => (6, 1),
        "copy_residue" => (1, 1),
        "memw_residue" | "memw_aligned_residue" | "memw_register_residue" => (0, 1),
        "add_pair" => (3, 1),
        "callcheck" => (0, 1),
        "generate_load" => (1, 1),
        JOIN => (0, HANDED),
        _ => return None,
    };
    Some(unit)
}

/// Records of the function's list, a cut one not counted.
fn length(question: &Question) -> Option<usize> {
    let (argument, width) = unit(question.name())?;
    if question.name() == JOIN {
        // The longer of the two.
        return question.lists(false).map(|list| list.len() / width).max();
    }
    match &question.arguments[argument] {
        Argument::List(list) => Some(list.len() / width),
        // A load is as long as it is wanted; far past the limit it is none.
        Argument::Number(calls) => {
            let calls = usize::try_from(*calls).ok()?;
            (calls <= EDGES[2]).then_some(calls)
        }
    }
}
