//! The expansion of a call over a window. Records and the window afterwards are the
//! original's.

use super::records::{access_record, kind_of, operation_record};
use super::{
    Answer, GAP_LIMIT, LIST_LIMIT, Outcome, Refusal, refuse_if, refuse_short, write_front,
};
use executor::vm::instruction::execution::copy_row_width;
use original::tables::copy::Functionality;
use original::tables::trace_builder::Window;

/// Operation and access records of a call; counts has both numbers.
#[allow(clippy::too_many_arguments)]
pub fn collect_copy_ops(
    kind: u64,
    timestamp: u64,
    src: u64,
    dst: u64,
    count: u64,
    gap: u64,
    bytes: &mut [u8],
    stamps: &mut [u64],
    ops: &mut [u64],
    accesses: &mut [u64],
    counts: &mut [u64; 2],
) -> Answer {
    let mut judge = || {
        let cells = [bytes.len(), stamps.len()];
        let kind = judge_call(kind, timestamp, [src, dst, count], gap, cells)?;
        let mut window = Window::new(bytes, stamps);
        let (memw, rows) = window.expand(kind, timestamp, [src, dst, count]);
        let flat_ops: Vec<u64> = rows.iter().flat_map(operation_record).collect();
        let flat_accesses: Vec<u64> = memw.iter().flat_map(access_record).collect();
        refuse_short(ops.len(), flat_ops.len())?;
        refuse_short(accesses.len(), flat_accesses.len())?;
        write_front(ops, &flat_ops);
        write_front(accesses, &flat_accesses);
        for (address, (byte, stamp)) in bytes.iter_mut().zip(stamps.iter_mut()).enumerate() {
            (*byte, *stamp) = window.cell(address);
        }
        *counts = [rows.len() as u64, memw.len() as u64];
        Ok(rows.len() as u64)
    };
    Answer::from(judge())
}

/// 10 for a number that is no kind, then 7, 8, 1, 3, 5, 2 on plain sums.
fn judge_call(
    kind: u64,
    timestamp: u64,
    call: [u64; 3],
    gap: u64,
    [bytes, stamps]: [usize; 2],
) -> Outcome<Functionality> {
    let [src, dst, count] = call.map(u128::from);
    let kind = kind_of(kind).ok_or(Refusal::at(10, 0))?;
    let is_write = kind == Functionality::Write;
    refuse_if(gap >= GAP_LIMIT, 7)?;
    refuse_if(bytes != stamps || bytes > LIST_LIMIT, 8)?;
    refuse_if(timestamp == u64::MAX, 1)?;
    refuse_if(
        kind == Functionality::Set && dst != src + u128::from(gap),
        3,
    )?;
    refuse_if(is_write && dst + count > (1 << 32) - 1, 5)?;
    let outside = |start: u128| start + count > bytes as u128;
    refuse_if(
        count != 0 && (outside(src) || (!is_write && outside(dst))),
        2,
    )?;
    Ok(kind)
}

/// The widths of a call's rows by the executor's rule, for any numbers; none for count 0.
pub fn row_widths(kind: u64, src: u64, dst: u64, count: u64) -> Vec<u64> {
    let (mut offset, mut widths) = (0, Vec::new());
    while offset < count {
        let width = copy_row_width(src, dst, offset, count - offset, kind == 2);
        widths.push(u64::from(width));
        offset += u64::from(width);
    }
    widths
}
