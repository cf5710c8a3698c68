//! The two sides of a comparison: a function for each exported one, and how a question
//! is put to it.

use crate::functions::Parameter;
use crate::oracle::Answer;
use crate::protocol::{Argument, Question, Reply};
use crate::{exported, oracle};
use std::hint::black_box;

type Residue = fn(&[u64], u64) -> Answer;
type Maker = fn(&[u64], &mut [u64]) -> Answer;

/// Parameters as in the exported functions.
#[rustfmt::skip]
#[allow(clippy::type_complexity)]
pub struct Side {
    field_add: fn(u64, u64) -> Answer,
    field_sub: fn(u64, u64) -> Answer,
    field_mul: fn(u64, u64) -> Answer,
    copy_residue: fn(u64, &[u64], u64) -> Answer,
    memw_residue: Residue,
    memw_aligned_residue: Residue,
    memw_register_residue: Residue,
    add_pair: fn(&[u64], &[u64], &[u64], &[u64], &[u64], &mut [u64; 3]) -> Answer,
    generate_copy_trace: Maker,
    generate_memw_trace: Maker,
    generate_memw_aligned_trace: Maker,
    generate_memw_register_trace: Maker,
    route_accesses: fn(&[u64], &mut [u64], &mut [u64], &mut [u64], &mut [u64; 3]) -> Answer,
    register_lookups: Maker,
    push_reg_access: fn(u64, u32, u32, u32, u32, u64, u64, u64, &mut [u64; 29]) -> Answer,
    new_register_state: fn(u64, u64, &mut [u64; 68]) -> Answer,
    collect_copy_register_ops:
        fn(u64, u64, u64, u64, u64, &mut [u64; 68], &mut [u64; 116]) -> Answer,
    collect_copy_ops: fn(
        u64, u64, u64, u64, u64, u64, &mut [u8], &mut [u64], &mut [u64], &mut [u64], &mut [u64; 2],
    ) -> Answer,
    generate_load: fn(u64, u64, &mut [u64]) -> Answer,
    join_calls: fn(&[u64], &[u64], &mut [u64]) -> Answer,
    chain_check: fn(u64, &[u64]) -> Answer,
    row_check: fn(u64, &[u64]) -> Answer,
    read_back: fn(u64, &[u64], &mut [u64], &mut [u64], &mut [u64; 2]) -> Answer,
}

macro_rules! side {
    ($module:ident: $($name:ident)*) => { Side { $($name: $module::$name),* } };
    ($module:ident) => { side! { $module:
        field_add field_sub field_mul
        copy_residue memw_residue memw_aligned_residue memw_register_residue add_pair
        generate_copy_trace generate_memw_trace
        generate_memw_aligned_trace generate_memw_register_trace
        route_accesses register_lookups push_reg_access
        new_register_state collect_copy_register_ops
        collect_copy_ops generate_load join_calls chain_check row_check read_back
    } };
}

/// The published Rust under document 01's refusals.
pub const ORACLE: Side = side!(oracle);
/// The proved code. Functions that the archive lacks must not be asked.
pub const EXPORTED: Side = side!(exported);

impl Side {
    /// The reply of this side; `callcheck` is no exported function.
    pub fn reply(&self, question: &Question) -> Reply {
        self.reply_and_inputs(question).0
    }

    /// The reply, and every slice that is not lent as it is after the call.
    pub fn reply_and_inputs(&self, question: &Question) -> (Reply, Vec<Vec<u64>>) {
        let mut parted = Parted::of(question);
        let answer = self.answer(question, &mut parted);
        // What foreign code might have written through a shared slice is read anew.
        let Parted { slices, lent, .. } = black_box(parted);
        (Reply { answer, lent }, slices)
    }

    fn answer(&self, question: &Question, parted: &mut Parted) -> Answer {
        let n = &parted.numbers;
        let s: Vec<&[u64]> = parted.slices.iter().map(Vec::as_slice).collect();
        let lent = &mut parted.lent;
        match question.name() {
            "field_add" => (self.field_add)(n[0], n[1]),
            "field_sub" => (self.field_sub)(n[0], n[1]),
            "field_mul" => (self.field_mul)(n[0], n[1]),
            "copy_residue" => (self.copy_residue)(n[0], s[0], n[1]),
            "memw_residue" => (self.memw_residue)(s[0], n[0]),
            "memw_aligned_residue" => (self.memw_aligned_residue)(s[0], n[0]),
            "memw_register_residue" => (self.memw_register_residue)(s[0], n[0]),
            "add_pair" => (self.add_pair)(s[0], s[1], s[2], s[3], s[4], array(&mut lent[0])),
            "chain_check" => (self.chain_check)(n[0], s[0]),
            "row_check" => (self.row_check)(n[0], s[0]),
            "new_register_state" => (self.new_register_state)(n[0], n[1], array(&mut lent[0])),
            "generate_load" => (self.generate_load)(n[0], n[1], &mut lent[0]),
            "register_lookups" => (self.register_lookups)(s[0], &mut lent[0]),
            "join_calls" => (self.join_calls)(s[0], s[1], &mut lent[0]),
            name if name.starts_with("generate_") => self.table(name, s[0], &mut lent[0]),
            name => self.lent(name, n, &s, lent),
        }
    }

    fn table(&self, name: &str, list: &[u64], table: &mut [u64]) -> Answer {
        let maker = match name {
            "generate_copy_trace" => self.generate_copy_trace,
            "generate_memw_trace" => self.generate_memw_trace,
            "generate_memw_aligned_trace" => self.generate_memw_aligned_trace,
            "generate_memw_register_trace" => self.generate_memw_register_trace,
            _ => unreachable!("{name}"),
        };
        maker(list, table)
    }

    /// The functions that lend several lists, or take words.
    #[rustfmt::skip]
    fn lent(&self, name: &str, n: &[u64], s: &[&[u64]], lent: &mut [Vec<u64>]) -> Answer {
        match (name, lent) {
            ("route_accesses", [register, aligned, general, counts]) => {
                (self.route_accesses)(s[0], register, aligned, general, array(counts))
            }
            ("push_reg_access", [record]) => {
                let [val0, val1, old0, old1] = [1, 2, 3, 4].map(|i| n[i] as u32);
                (self.push_reg_access)(
                    n[0], val0, val1, old0, old1, n[5], n[6], n[7], array(record),
                )
            }
            ("collect_copy_register_ops", [state, records]) => {
                let (state, records) = (array(state), array(records));
                (self.collect_copy_register_ops)(n[0], n[1], n[2], n[3], n[4], state, records)
            }
            ("collect_copy_ops", lent) => self.expansion(n, lent),
            ("read_back", [ops, calls, counts]) => {
                (self.read_back)(n[0], s[0], ops, calls, array(counts))
            }
            _ => unreachable!("{name}"),
        }
    }

    /// Bytes are numbers in a question and bytes in the call.
    #[rustfmt::skip]
    fn expansion(&self, n: &[u64], lent: &mut [Vec<u64>]) -> Answer {
        let [bytes, stamps, ops, accesses, counts] = lent else {
            unreachable!("five lent lists")
        };
        let mut plain: Vec<u8> = bytes.iter().map(|&byte| byte as u8).collect();
        let answer = (self.collect_copy_ops)(
            n[0], n[1], n[2], n[3], n[4], n[5], &mut plain, stamps, ops, accesses, array(counts),
        );
        *bytes = plain.into_iter().map(u64::from).collect();
        answer
    }
}

/// The arguments of a question, parted by use. Every list is a copy with memory of its
/// own and of its own length, so that valgrind sees a step past its end, and so that the
/// question still says what the lists were.
struct Parted {
    numbers: Vec<u64>,
    slices: Vec<Vec<u64>>,
    lent: Vec<Vec<u64>>,
}

impl Parted {
    fn of(question: &Question) -> Self {
        let mut parted = Self {
            numbers: vec![],
            slices: vec![],
            lent: vec![],
        };
        for (parameter, argument) in question.parameters().iter().zip(&question.arguments) {
            parted.add(*parameter, argument);
        }
        parted
    }

    fn add(&mut self, parameter: Parameter, argument: &Argument) {
        match argument {
            Argument::Number(number) => self.numbers.push(*number),
            Argument::List(list) if parameter.is_lent() => self.lent.push(list.clone()),
            Argument::List(list) => self.slices.push(list.clone()),
        }
    }
}

/// A lent array out of a lent list; a question's form holds its length.
fn array<const N: usize>(list: &mut [u64]) -> &mut [u64; N] {
    list.try_into()
        .expect("an array's length is checked with the question")
}
