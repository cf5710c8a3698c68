//! The program `callcheck`, from input bytes to output bytes, by document 01, 'Chain
//! check and read-back', over this module's own expansion, maker and check.

use super::records::OPERATION;
use super::{COPY_COLUMNS, GAP_LIMIT, chain_check, collect_copy_ops, generate_copy_trace};

const CELLS: usize = 1024;
/// The most live rows, and the rows of their table.
const ROWS: usize = 32;
const KINDS: [&str; 3] = ["copy", "set", "write"];

/// A refusal's number and its line, counted from 1.
struct Refused(u64, usize);

/// The whole output.
pub fn callcheck(input: &[u8]) -> Vec<u8> {
    let text = match run(input) {
        Ok(text) => text,
        Err(Refused(number, line)) => format!("refused\t{number}\t{line}\n"),
    };
    text.into_bytes()
}

fn run(input: &[u8]) -> Result<String, Refused> {
    let input = input.strip_suffix(b"\n").unwrap_or(input);
    let mut lines = input.split(|&byte| byte == b'\n').zip(1..);
    let gap = lines
        .next()
        .and_then(|(line, _)| gap_of(line))
        .ok_or(Refused(10, 1))?;
    if gap >= GAP_LIMIT {
        return Err(Refused(7, 1));
    }
    let (mut bytes, mut stamps) = (vec![0; CELLS], vec![0; CELLS]);
    let mut ops = Vec::new();
    for (line, place) in lines {
        let call = call_of(line).ok_or(Refused(10, place))?;
        let made = expand(call, gap, &mut bytes, &mut stamps);
        ops.extend(made.map_err(|number| Refused(number, place))?);
        if ops.len() > ROWS * OPERATION {
            return Err(Refused(9, place));
        }
    }
    Ok(print(gap, &ops))
}

/// The call's operation records, in buffers that are never short.
fn expand(
    [kind, timestamp, src, dst, count]: [u64; 5],
    gap: u64,
    bytes: &mut [u8],
    stamps: &mut [u64],
) -> Result<Vec<u64>, u64> {
    let mut ops = vec![0; CELLS * OPERATION];
    let mut accesses = vec![0; 2 * CELLS * super::records::ACCESS];
    let answer = collect_copy_ops(
        kind,
        timestamp,
        src,
        dst,
        count,
        gap,
        bytes,
        stamps,
        &mut ops,
        &mut accesses,
        &mut [0; 2],
    );
    if answer.number != 0 {
        return Err(answer.number);
    }
    ops.truncate(answer.value as usize * OPERATION);
    Ok(ops)
}

fn print(gap: u64, ops: &[u64]) -> String {
    let mut text = String::new();
    for (row, op) in ops.chunks(OPERATION).enumerate() {
        let numbers: Vec<String> = op[..7].iter().map(u64::to_string).collect();
        text += &format!(
            "row\t{row}\t{}\t{}\n",
            numbers.join("\t"),
            KINDS[op[7] as usize]
        );
    }
    let mut table = vec![0; ROWS * COPY_COLUMNS];
    let rows = generate_copy_trace(ops, &mut table).value as usize;
    let verdict = chain_check(gap, &table[..rows * COPY_COLUMNS]);
    assert_eq!(
        verdict.number, 0,
        "demand 3: the table of accepted calls passes"
    );
    text + &format!("passed\t{}\n", verdict.value)
}

/// `gap`, tab, number.
fn gap_of(line: &[u8]) -> Option<u64> {
    let fields: Vec<&[u8]> = line.split(|&byte| byte == b'\t').collect();
    match fields[..] {
        [b"gap", number] => number_of(number),
        _ => None,
    }
}

/// Kind, stamp, src, dst, count.
fn call_of(line: &[u8]) -> Option<[u64; 5]> {
    let fields: Vec<&[u8]> = line.split(|&byte| byte == b'\t').collect();
    let [word, stamp, src, dst, count] = fields[..] else {
        return None;
    };
    let kind = KINDS.iter().position(|kind| kind.as_bytes() == word)?;
    let numbers = [stamp, src, dst, count].map(number_of);
    let [Some(stamp), Some(src), Some(dst), Some(count)] = numbers else {
        return None;
    };
    Some([kind as u64, stamp, src, dst, count])
}

/// 1 to 20 digits, at most 2^64 - 1.
fn number_of(digits: &[u8]) -> Option<u64> {
    if !(1..=20).contains(&digits.len()) || !digits.iter().all(u8::is_ascii_digit) {
        return None;
    }
    let number = digits
        .iter()
        .fold(0, |n: u128, digit| 10 * n + u128::from(digit - b'0'));
    u64::try_from(number).ok()
}
