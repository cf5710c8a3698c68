//! The text protocol: a question on a line, the answer on a line (README.md).

use crate::functions::Parameter::{self, Bytes, Lent, LentArray, LentBytes, Number, Slice, Word};
use crate::oracle::{self, Answer};
use crate::side;

pub use crate::functions::FUNCTIONS;

#[derive(Debug, Clone, PartialEq, Eq)]
pub enum Argument {
    Number(u64),
    List(Vec<u64>),
}

impl From<u64> for Argument {
    fn from(number: u64) -> Self {
        Self::Number(number)
    }
}

impl From<Vec<u64>> for Argument {
    fn from(list: Vec<u64>) -> Self {
        Self::List(list)
    }
}

/// A call of a function: `function` is its place in `FUNCTIONS`.
#[derive(Debug, Clone, PartialEq, Eq)]
pub struct Question {
    pub function: usize,
    pub arguments: Vec<Argument>,
}

/// The answer, and every lent list afterwards.
#[derive(Debug, Clone, PartialEq, Eq)]
pub struct Reply {
    pub answer: Answer,
    pub lent: Vec<Vec<u64>>,
}

impl Question {
    /// Panics if the function is not one of `FUNCTIONS` or the arguments do not fit.
    pub fn new(name: &str, arguments: Vec<Argument>) -> Self {
        let function = function_named(name).expect("an exported function");
        let question = Self {
            function,
            arguments,
        };
        assert!(question.fits(), "arguments of {name}");
        question
    }

    pub fn name(&self) -> &'static str {
        FUNCTIONS[self.function].0
    }

    pub fn parameters(&self) -> &'static [Parameter] {
        FUNCTIONS[self.function].1
    }

    /// How many numbers the question has.
    pub fn size(&self) -> usize {
        size(&self.arguments)
    }

    /// The lists that the function can write, or those that it cannot.
    pub fn lists(&self, lent: bool) -> impl Iterator<Item = &Vec<u64>> {
        let pairs = self.parameters().iter().zip(&self.arguments);
        pairs.filter_map(move |pair| match pair {
            (parameter, Argument::List(list)) if parameter.is_lent() == lent => Some(list),
            _ => None,
        })
    }

    /// Whether each argument is what its parameter takes.
    fn fits(&self) -> bool {
        let parameters = self.parameters();
        let pairs = parameters.iter().zip(&self.arguments);
        parameters.len() == self.arguments.len() && pairs.into_iter().all(fits)
    }

    pub fn parse(line: &str) -> Result<Self, String> {
        let mut words = line.split_ascii_whitespace();
        let name = words.next().ok_or("empty line")?;
        let function = function_named(name).ok_or(format!("no function {name}"))?;
        let mut numbers = words.map(number_of);
        let mut arguments = Vec::new();
        for parameter in FUNCTIONS[function].1 {
            arguments.push(read_argument(*parameter, &mut numbers)?);
        }
        let question = Self {
            function,
            arguments,
        };
        match numbers.next() {
            Some(_) => Err("numbers after the last parameter".into()),
            None if !question.fits() => Err("a parameter of another length or size".into()),
            None => Ok(question),
        }
    }

    pub fn line(&self) -> String {
        self.name().to_string() + &written(&self.arguments)
    }

    /// The oracle's reply.
    pub fn reply(&self) -> Reply {
        match (self.name(), &self.arguments[..]) {
            ("callcheck", [Argument::List(input)]) => reply_program(input),
            _ => side::ORACLE.reply(self),
        }
    }
}

impl Reply {
    /// A program's output, as if lent; the value is its length, the number its exit
    /// status.
    pub fn of_output(status: u64, output: &[u8]) -> Self {
        let answer = Answer {
            number: status,
            place: 0,
            value: output.len() as u64,
        };
        let lent = vec![output.iter().copied().map(u64::from).collect()];
        Self { answer, lent }
    }

    /// What the last line of a program's output says: 0 and the rows of the table that
    /// passed, or a refusal's number and its line.
    pub fn verdict(&self) -> [u64; 2] {
        let output = &self.lent[0];
        let text: String = output.iter().map(|&byte| char::from(byte as u8)).collect();
        let fields: Vec<&str> = text.lines().last().unwrap_or("").split('\t').collect();
        let number = |field: &str| field.parse().expect("a number");
        match fields[..] {
            ["refused", refusal, line] => [number(refusal), number(line)],
            ["passed", rows] => [0, number(rows)],
            _ => panic!("no output of callcheck: {text}"),
        }
    }

    pub fn line(&self) -> String {
        let Answer {
            number,
            place,
            value,
        } = self.answer;
        let mut line = format!("{number} {place} {value}");
        self.lent.iter().for_each(|list| push_list(&mut line, list));
        line
    }
}

/// How many numbers there are, a list's length among them.
pub fn size(arguments: &[Argument]) -> usize {
    let size = |argument: &Argument| match argument {
        Argument::Number(_) => 1,
        Argument::List(list) => 1 + list.len(),
    };
    arguments.iter().map(size).sum()
}

/// The numbers, a space before each, a list as its length and its numbers.
pub fn written(arguments: &[Argument]) -> String {
    let mut line = String::new();
    for argument in arguments {
        match argument {
            Argument::Number(number) => line += &format!(" {number}"),
            Argument::List(list) => push_list(&mut line, list),
        }
    }
    line
}

fn function_named(name: &str) -> Option<usize> {
    FUNCTIONS.iter().position(|(known, ..)| *known == name)
}

fn fits((parameter, argument): (&Parameter, &Argument)) -> bool {
    match (parameter, argument) {
        (Number, Argument::Number(_)) => true,
        (Word, Argument::Number(number)) => *number < 1 << 32,
        (Slice | Lent, Argument::List(_)) => true,
        (Bytes | LentBytes, Argument::List(list)) => list.iter().all(|&byte| byte < 256),
        (LentArray(length), Argument::List(list)) => list.len() == *length,
        _ => false,
    }
}

fn number_of(word: &str) -> Result<u64, String> {
    word.parse()
        .map_err(|_| format!("{word} is no number of 64 bits"))
}

fn read_argument(
    parameter: Parameter,
    numbers: &mut impl Iterator<Item = Result<u64, String>>,
) -> Result<Argument, String> {
    let mut next = || numbers.next().unwrap_or(Err("a number is missing".into()));
    let number = next()?;
    if matches!(parameter, Number | Word) {
        return Ok(Argument::Number(number));
    }
    let list: Result<Vec<u64>, String> = (0..number).map(|_| next()).collect();
    Ok(Argument::List(list?))
}

fn push_list(line: &mut String, list: &[u64]) {
    *line += &format!(" {}", list.len());
    list.iter()
        .for_each(|number| *line += &format!(" {number}"));
}

/// The oracle's output for the program's input.
fn reply_program(input: &[u64]) -> Reply {
    let input: Vec<u8> = input.iter().map(|&byte| byte as u8).collect();
    Reply::of_output(0, &oracle::callcheck(&input))
}
