//! Inputs of the program `callcheck`, damaged ones included.

use super::numbers::{bad_gap, edge, gap};
use crate::protocol::Question;
use crate::rng::Rng;

pub fn question(rng: &mut Rng) -> Question {
    let input = input(rng);
    question_of(input)
}

/// The question for this input.
pub fn question_of(input: Vec<u8>) -> Question {
    let bytes: Vec<u64> = input.into_iter().map(u64::from).collect();
    Question::new("callcheck", vec![bytes.into()])
}

/// An input of so many bytes: a few calls, then calls of one row each, which go past 32
/// rows, or bytes of one kind; cut where it has as many bytes as asked.
pub fn long_question(rng: &mut Rng, length: usize) -> Question {
    let gap = gap(rng);
    let mut input = format!("gap\t{gap}\n").into_bytes();
    for _ in 0..rng.below(8) {
        input.extend(empty_call(rng, gap).into_bytes());
    }
    let fill = rng.pick(b"\n\t0cc");
    while input.len() < length {
        match fill {
            b'c' => input.extend(empty_call(rng, gap).into_bytes()),
            byte => input.resize(length, byte),
        }
    }
    input.truncate(length);
    question_of(input)
}

/// A line that is accepted and has one row.
fn empty_call(rng: &mut Rng, gap: u64) -> String {
    let src = rng.below(1 << 32);
    let stamp = edge(rng).min(u64::MAX - 1);
    let [stamp, zero] = [stamp, 0].map(|n| number_within(rng, n));
    match rng.below(3) {
        0 => format!("copy\t{stamp}\t{src}\t{zero}\t{zero}\n"),
        1 => format!("set\t{stamp}\t{src}\t{}\t{zero}\n", src + gap),
        _ => format!("write\t{stamp}\t{src}\t{}\t{zero}\n", u32::MAX),
    }
}

/// Digits of a number, 20 or as few as it has.
fn number_within(rng: &mut Rng, number: u64) -> String {
    match rng.bit() {
        0 => format!("{number:020}"),
        _ => number.to_string(),
    }
}

fn input(rng: &mut Rng) -> Vec<u8> {
    if rng.once_in(50) {
        let length = rng.place(40);
        return rng.many(length, |rng| rng.pick(b"gapcoyset\t\n\r 0189-+\xff"));
    }
    let gap = if rng.once_in(30) {
        bad_gap(rng)
    } else {
        gap(rng)
    };
    let calls = rng.below(7) as usize;
    let mut lines = vec![format!("gap\t{}", number(rng, gap))];
    lines.extend(rng.many(calls, |rng| call_line(rng, gap)));
    if rng.once_in(5) {
        let place = rng.place(lines.len());
        damage(rng, &mut lines[place]);
    }
    if rng.once_in(40) {
        lines.remove(0);
    }
    let mut input = lines.join("\n").into_bytes();
    let newlines = rng.pick(&[0, 1, 1, 1, 1, 2]);
    input.extend(vec![b'\n'; newlines]);
    input
}

/// Digits of a number, at times with zeros before them.
fn number(rng: &mut Rng, number: u64) -> String {
    match rng.below(12) {
        0 => format!("{number:020}"),
        1 => format!("{number:021}"),
        2 => format!("0{number}"),
        _ => number.to_string(),
    }
}

/// A call that mostly fits 1,024 cells.
fn call_line(rng: &mut Rng, gap: u64) -> String {
    let place = |rng: &mut Rng| match rng.below(10) {
        0 => edge(rng),
        1 => 1000 + rng.below(30),
        _ => rng.below(900),
    };
    let kind = rng.place(3);
    let [src, other] = [place(rng), place(rng)];
    let dst = if kind == 1 && !rng.once_in(10) {
        src.wrapping_add(gap)
    } else {
        other
    };
    let count = if rng.once_in(8) {
        rng.below(300)
    } else {
        rng.below(40)
    };
    let stamp = if rng.once_in(5) {
        edge(rng)
    } else {
        rng.below(100)
    };
    let word = ["copy", "set", "write"][kind];
    let [stamp, src, dst, count] = [stamp, src, dst, count].map(|n| {
        if rng.once_in(6) {
            number(rng, n)
        } else {
            n.to_string()
        }
    });
    format!("{word}\t{stamp}\t{src}\t{dst}\t{count}")
}

/// A line of another form, mostly.
fn damage(rng: &mut Rng, line: &mut String) {
    let place = rng.place(line.len() + 1);
    match rng.below(6) {
        0 => line.insert(
            place,
            rng.pick(&['\t', ' ', '0', 'x', '-', '+', '\r', '\n', 'é']),
        ),
        1 => line.truncate(place),
        2 => *line = line.to_uppercase(),
        3 => *line += "\t1",
        4 => *line += "18446744073709551616",
        _ => line.clear(),
    }
}
