//! The recorded questions and answers of the replay programs, which ask the exported
//! functions, the one behind `callcheck`, and `round_trip`, inside the repository's own
//! tests. A question is a line: the function's number within the program, then its
//! parameters, a slice as its length and its numbers. The answer is number, place, value,
//! then each lent slice afterwards as its length and its numbers, one number to a line.

use crate::generate::programs::question_of;
use crate::generate::{Generator, carries, join, load, lookups};
use crate::inputs;
use crate::numbered;
use crate::oracle::PRIME;
use crate::protocol::{self, Argument, Question, Reply};
use crate::round_trips;
use std::collections::BTreeMap;
use std::fmt::Write;
use std::fs;
use std::path::Path;

/// A program's crate, and the functions that it asks, by number.
struct Program {
    name: &'static str,
    /// How many numbers its buffer holds.
    numbers: usize,
    parts: &'static [Part],
}

/// A function, and how many questions of each class are kept.
struct Part {
    name: &'static str,
    answered: usize,
    refused: usize,
    /// How many numbers a question may have.
    longest: usize,
}

const fn part(name: &'static str, [answered, refused]: [usize; 2], longest: usize) -> Part {
    Part {
        name,
        answered,
        refused,
        longest,
    }
}

const PROGRAMS: &[Program] = &[
    Program {
        name: "replay_field",
        numbers: 8_192,
        parts: &[
            part("field_add", [150, 30], 2),
            part("field_sub", [150, 30], 2),
            part("field_mul", [150, 30], 2),
        ],
    },
    Program {
        name: "replay_copy",
        numbers: 8_192,
        parts: &[
            part("generate_copy_trace", [1, 1], 420),
            part("copy_residue", [1, 1], 50),
            part("add_pair", [20, 1], 120),
        ],
    },
    Program {
        name: "replay_access",
        numbers: 16_384,
        parts: &[
            part("generate_memw_trace", [1, 1], 235),
            part("generate_memw_aligned_trace", [1, 1], 180),
            part("generate_memw_register_trace", [1, 1], 130),
            part("memw_residue", [1, 1], 60),
            part("memw_aligned_residue", [1, 1], 40),
            part("memw_register_residue", [1, 1], 20),
            part("route_accesses", [1, 1], 180),
            part("push_reg_access", [4, 1], 40),
            part("new_register_state", [1, 0], 80),
            part("collect_copy_register_ops", [1, 1], 200),
            part(lookups::LOOKUPS, [1, 1], 100),
        ],
    },
    Program {
        name: "replay_expansion",
        numbers: 16_384,
        parts: &[
            part("collect_copy_ops", [2, 1], 300),
            part("generate_load", [1, 3], 110),
            part(NUMBERED, [0, 0], 0),
            part(join::JOIN, [1, 1], 90),
        ],
    },
    Program {
        name: "replay_chain",
        numbers: 16_384,
        parts: &[
            part("chain_check", [2, 1], 130),
            part("read_back", [2, 1], 220),
            part("row_check", [1, 1], 130),
        ],
    },
    Program {
        name: "replay_callcheck",
        numbers: 16_384,
        parts: &[part("callcheck", [3, 2], 200)],
    },
    Program {
        name: "replay_round_trip",
        numbers: 16_384,
        parts: &[part("round_trip", [1, 2], 1_200)],
    },
];

/// The expansion over windows of numbered cells.
const NUMBERED: &str = "numbered cells";

/// A program reads fewer bytes than this.
const BYTES: usize = 65_536;

/// Questions that are looked at for each function.
const DRAWS: usize = 20_000;

/// Writes the files of each program whose folder is there.
pub fn run(crates: &str, seed: u64) -> Result<(), String> {
    for program in PROGRAMS {
        let folder = Path::new(crates).join(program.name);
        if !folder.is_dir() {
            println!("{}: no such folder in {crates}, left out", program.name);
            continue;
        }
        let script = program
            .script(&source(&folder)?, seed)
            .map_err(|why| format!("{}: {why}", program.name))?;
        fs::write(folder.join("stdin"), &script.questions).map_err(|error| error.to_string())?;
        fs::write(folder.join("stdout"), &script.answers).map_err(|error| error.to_string())?;
        println!("{}: {}", program.name, script.summary());
    }
    Ok(())
}

/// The text of a program's sources.
fn source(folder: &Path) -> Result<String, String> {
    let read = || -> std::io::Result<String> {
        let files = fs::read_dir(folder.join("src"))?;
        files.map(|file| fs::read_to_string(file?.path())).collect()
    };
    read().map_err(|error| format!("{}: {error}", folder.display()))
}

/// What a program reads and must write.
#[derive(Default)]
struct Script {
    questions: String,
    answers: String,
    asked: usize,
    numbers: usize,
}

impl Program {
    /// Functions that the program's source does not call are left out.
    fn script(&self, source: &str, seed: u64) -> Result<Script, String> {
        let mut script = Script::default();
        for (number, part) in self.parts.iter().enumerate() {
            if !source.contains(&part.call()) {
                println!("{}: does not ask {}", self.name, part.name);
                continue;
            }
            for (arguments, answer) in part.recorded(seed)? {
                script.add(number, &arguments, &answer);
            }
        }
        if script.questions.len() >= BYTES || script.numbers > self.numbers {
            return Err(format!("too long: {}", script.summary()));
        }
        Ok(script)
    }
}

impl Script {
    fn add(&mut self, function: usize, arguments: &[Argument], answer: &str) {
        self.asked += 1;
        self.numbers += 1 + protocol::size(arguments);
        let parameters = protocol::written(arguments);
        let _ = writeln!(self.questions, "{function}{parameters}");
        self.answers += &answer.replace(' ', "\n");
        self.answers.push('\n');
    }

    fn summary(&self) -> String {
        let (asked, numbers, bytes) = (self.asked, self.numbers, self.questions.len());
        format!("{asked} questions, {numbers} numbers, {bytes} bytes")
    }
}

impl Part {
    /// How a program's source calls it: an exported function stands in `exports` or in one of its modules.
    fn call(&self) -> String {
        match self.name {
            "callcheck" => "callcheck_text::answer(".into(),
            "round_trip" => "round_trip::round_trip(".into(),
            NUMBERED => "fn expand_numbered(".into(),
            name => format!("::{name}("),
        }
    }

    /// The parameters and the answer of each question.
    fn recorded(&self, seed: u64) -> Result<Vec<(Vec<Argument>, String)>, String> {
        let replies = match self.name {
            NUMBERED => return Ok(numbered::recorded()),
            "round_trip" => {
                let most = [self.answered, self.refused];
                round_trips::recorded(seed, most, self.longest)
            }
            _ => {
                let questions = self.questions(seed)?.into_iter();
                let arguments = |(question, reply): (Question, Reply)| (question.arguments, reply);
                questions.map(arguments).collect()
            }
        };
        let lines = replies
            .into_iter()
            .map(|(arguments, reply)| (arguments, reply.line()));
        Ok(lines.collect())
    }

    /// The questions that are always asked, then so many of each class.
    fn questions(&self, seed: u64) -> Result<Vec<(Question, Reply)>, String> {
        let fixed = fixed(self.name)?.into_iter();
        let mut kept: Vec<_> = fixed
            .map(|question| (question.clone(), question.reply()))
            .collect();
        let mut classes: BTreeMap<[u64; 2], usize> = BTreeMap::new();
        let mut generator = Generator::new(self.name, seed).expect("a kind");
        for _ in 0..DRAWS {
            let (question, reply) = generator.asked();
            let class = class(&question, &reply);
            let seen = classes.entry(class).or_default();
            let most = match class[0] {
                0 => self.answered,
                _ => self.refused,
            };
            if question.size() <= self.longest && *seen < most {
                *seen += 1;
                kept.push((question, reply));
            }
        }
        Ok(kept)
    }
}

/// What makes two questions alike: the answer's number; of a refusal its place, as far
/// as it tells places apart, or the residue; of an answer what it is about.
fn class(question: &Question, reply: &Reply) -> [u64; 2] {
    let answer = reply.answer;
    match (question.name(), answer.number) {
        // A refusal's line counts as far as it tells lines apart.
        ("callcheck", _) => {
            let [number, place] = reply.verdict();
            return [number, if number == 0 { place } else { place.min(4) }];
        }
        (_, 0) => {}
        ("chain_check" | "row_check", 16) => return [16, answer.value],
        ("read_back", 16) => return [16, 0],
        ("row_check", 14) => return [14, answer.place],
        ("row_check", 13) => return [13, row_of(question).len() as u64],
        (_, number) => return [number, answer.place.min(2)],
    }
    let numbers: Vec<u64> = question.arguments.iter().filter_map(number).collect();
    let chosen = match question.name() {
        name if name.ends_with("residue") => numbers[numbers.len() - 1],
        "generate_load" => numbers[1],
        name if name.starts_with("generate") => first_length(question),
        "route_accesses" => first_length(question),
        "collect_copy_register_ops" => numbers[0],
        // The kind, and whether the call is empty, narrow rows only, or has wide ones.
        "collect_copy_ops" => 3 * numbers[0] + numbers[4].min(8).div_ceil(7),
        "push_reg_access" | lookups::LOOKUPS | join::JOIN | "chain_check" | "read_back" => {
            answer.value
        }
        // FIRST to MU, which are bits in a row that passes.
        "row_check" => row_of(question)[32..39]
            .iter()
            .fold(0, |bits, flag| 2 * bits + flag),
        _ => 0,
    };
    [0, chosen]
}

fn number(argument: &Argument) -> Option<u64> {
    match argument {
        Argument::Number(number) => Some(*number),
        Argument::List(_) => None,
    }
}

/// The length of the first list, which these functions begin with.
fn first_length(question: &Question) -> u64 {
    match &question.arguments[0] {
        Argument::List(list) => list.len() as u64,
        Argument::Number(number) => *number,
    }
}

/// The row of a question to the row check.
fn row_of(question: &Question) -> &[u64] {
    match &question.arguments[1] {
        Argument::List(row) => row,
        Argument::Number(_) => unreachable!("row_check takes a gap and a row"),
    }
}

/// The questions that are always asked, for the functions that have some.
fn fixed(name: &str) -> Result<Vec<Question>, String> {
    if name.starts_with("field_") {
        return Ok(edges(name));
    }
    match name {
        "callcheck" => Ok(inputs::recorded()?.into_iter().map(question_of).collect()),
        carries::MAKER => Ok(carries::at_each_address()),
        "generate_load" => Ok(load::always()),
        join::JOIN => Ok(join::always()),
        lookups::LOOKUPS => Ok(lookups::always()),
        _ => Ok(Vec::new()),
    }
}

/// Field operations on all pairs of numbers at the edges of 2^32, p and 2^64.
fn edges(name: &str) -> Vec<Question> {
    const TWO_32: u64 = 1 << 32;
    const EDGES: [u64; 11] = [
        0,
        1,
        2,
        TWO_32 - 1,
        TWO_32,
        TWO_32 + 1,
        PRIME - 2,
        PRIME - 1,
        PRIME,
        PRIME + 1,
        u64::MAX,
    ];
    let pairs = EDGES.iter().flat_map(|&a| EDGES.map(|b| [a, b]));
    let question = |pair: [u64; 2]| Question::new(name, pair.map(Argument::Number).into());
    pairs.map(question).collect()
}
