//! Routing and the lookups of the register table. Routes and records are the original's;
//! 11 is judged by document 01's words for a route, before the original is asked.

use super::records::{
    ACCESS, REGISTER, access_of, access_record, is_access, judge_list, register_record,
};
use super::{Answer, Outcome, refuse_if, refuse_short, write_front};
use original::tables::memw_register::RegRow;
use original::tables::trace_builder::{Routed, route, route_reg_access};

/// Document 01's route of an admitted access record: 0 register, 1 aligned, 2 general.
pub fn route_by_words(record: &[u64]) -> u64 {
    let (address, timestamp, width) = (record[1], record[10], record[11]);
    let stamps = &record[21..29];
    let equal_high = timestamp >> 32 == stamps[0] >> 32;
    let low = i64::from(timestamp as u32) - i64::from(stamps[0] as u32);
    let near = stamps[0] == stamps[1] && equal_high && (1..=65_536).contains(&low);
    if record[0] == 1 && width == 2 && near {
        return 0;
    }
    let agree = stamps[..width as usize]
        .iter()
        .all(|&stamp| stamp == stamps[0]);
    if (address % (1 << 32)) % width == 0 && agree {
        1
    } else {
        2
    }
}

/// Document 02's number of a record that goes to the register table: the low stamp
/// difference less one.
pub fn difference_by_words(record: &[u64]) -> u64 {
    record[10] % (1 << 32) - record[21] % (1 << 32) - 1
}

/// 11: the register table has no row for this address.
fn lacks_index(address: u64) -> bool {
    address % 2 == 1 || address / 2 > 65_535
}

/// 10, then 11, for a whole record.
fn fault(record: &[u64]) -> Option<u64> {
    if !is_access(record) {
        return Some(10);
    }
    (route_by_words(record) == 0 && lacks_index(record[1])).then_some(11)
}

/// The three lists as flat records.
fn flat(routed: &Routed) -> [Vec<u64>; 3] {
    [
        routed.register.iter().flat_map(register_record).collect(),
        routed.aligned.iter().flat_map(access_record).collect(),
        routed.general.iter().flat_map(access_record).collect(),
    ]
}

/// Three lists in arrival order; counts has their numbers of records.
pub fn route_accesses(
    accesses: &[u64],
    register: &mut [u64],
    aligned: &mut [u64],
    general: &mut [u64],
    counts: &mut [u64; 3],
) -> Answer {
    let judge = || {
        judge_list(accesses, ACCESS, fault)?;
        let lists = flat(&route(accesses.chunks(ACCESS).map(access_of)));
        let buffers = [register, aligned, general];
        for (buffer, list) in buffers.iter().zip(&lists) {
            refuse_short(buffer.len(), list.len())?;
        }
        for (buffer, list) in buffers.into_iter().zip(&lists) {
            write_front(buffer, list);
        }
        let [register, aligned, general] = lists.map(|list| list.len());
        *counts = [register / REGISTER, aligned / ACCESS, general / ACCESS].map(|n| n as u64);
        Ok((accesses.len() / ACCESS) as u64)
    };
    Answer::from(judge())
}

/// What a row of the register table sends to the half-word lookup, in the original's
/// words `IS_HALFWORD[timestamp_0 - old_timestamp_lo - 1]`: low byte, then high byte.
pub fn halfword_pair(row: &RegRow) -> [u64; 2] {
    let half = row.timestamp as u32 - row.old_timestamp_lo - 1;
    let half = u16::try_from(half).expect("the route holds the difference to 65,536");
    half.to_le_bytes().map(u64::from)
}

/// A pair for each row that the original's routing gives the register table, in its order.
pub fn register_lookups(accesses: &[u64], lookups: &mut [u64]) -> Answer {
    let mut judge = || {
        judge_list(accesses, ACCESS, fault)?;
        let rows = route(accesses.chunks(ACCESS).map(access_of)).register;
        let pairs: Vec<u64> = rows.iter().flat_map(halfword_pair).collect();
        refuse_short(lookups.len(), pairs.len())?;
        write_front(lookups, &pairs);
        Ok(rows.len() as u64)
    };
    Answer::from(judge())
}

/// One register access given by its parts: its route, and its record in the front of
/// `record` (8 numbers for the register table, else 29).
#[allow(clippy::too_many_arguments)]
pub fn push_reg_access(
    reg_addr: u64,
    val0: u32,
    val1: u32,
    old0: u32,
    old1: u32,
    timestamp: u64,
    old_timestamp: u64,
    is_read: u64,
    record: &mut [u64; ACCESS],
) -> Answer {
    let mut judge = || -> Outcome<u64> {
        refuse_if(is_read > 1, 10)?;
        let built = built_record(reg_addr, timestamp, old_timestamp);
        refuse_if(fault(&built).is_some(), 11)?;
        let (val, old) = ([val0, val1], [old0, old1]);
        let routed = route_reg_access(reg_addr, val, old, timestamp, old_timestamp, is_read == 1);
        let lists = flat(&routed);
        let place = lists
            .iter()
            .position(|list| !list.is_empty())
            .expect("one record");
        write_front(record, &lists[place]);
        Ok(place as u64)
    };
    Answer::from(judge())
}

/// What decides the route of a register access: a record of width 2, both stamps equal.
fn built_record(reg_addr: u64, timestamp: u64, old_timestamp: u64) -> [u64; ACCESS] {
    let mut record = [0; ACCESS];
    record[0] = 1;
    record[1] = reg_addr;
    record[10] = timestamp;
    record[11] = 2;
    record[21] = old_timestamp;
    record[22] = old_timestamp;
    record
}
