//! Numbers at the edges of 2^8, 2^16, 2^32, 2^64 and p.

use crate::oracle::PRIME;
use crate::rng::Rng;

const EDGES: [u64; 8] = [0, 1 << 8, 1 << 16, 1 << 32, 1 << 48, 1 << 63, PRIME, 0];

/// Any 64-bit number, often near an edge. (2^64 is the edge 0 from below.)
pub fn edge(rng: &mut Rng) -> u64 {
    match rng.below(8) {
        0..=3 => {
            let distance = rng.below(10);
            let edge = rng.pick(&EDGES);
            if rng.bit() == 1 {
                edge.wrapping_add(distance)
            } else {
                edge.wrapping_sub(distance)
            }
        }
        4 => rng.below(70),
        5 => rng.number() >> rng.below(64),
        6 => 1 << rng.below(64),
        _ => rng.number(),
    }
}

/// A number below the limit, often near an edge.
pub fn edge_below(rng: &mut Rng, limit: u64) -> u64 {
    if rng.once_in(4) {
        limit - 1 - rng.below(limit.min(3))
    } else {
        edge(rng) % limit
    }
}

pub fn byte(rng: &mut Rng) -> u64 {
    edge_below(rng, 1 << 8)
}

pub fn half(rng: &mut Rng) -> u64 {
    edge_below(rng, 1 << 16)
}

pub fn word(rng: &mut Rng) -> u64 {
    edge_below(rng, 1 << 32)
}

pub fn element(rng: &mut Rng) -> u64 {
    edge_below(rng, PRIME)
}

/// A number that is no element.
pub fn non_element(rng: &mut Rng) -> u64 {
    let most = u64::MAX - PRIME;
    PRIME + rng.pick(&[0, 1, most, most / 2])
}

/// A gap, of those where the expansion or the residues change their ways.
pub fn gap(rng: &mut Rng) -> u64 {
    match rng.below(5) {
        0 => word(rng),
        _ => rng.pick(&[0, 1, 3, 7, 8, 9, 4096, (1 << 32) - 1, 8, 8]),
    }
}

/// A gap that 7 refuses.
pub fn bad_gap(rng: &mut Rng) -> u64 {
    rng.pick(&[1 << 32, (1 << 32) + 8, 1 << 63, u64::MAX, PRIME])
}

/// Junk that fills a lent buffer of this length: what must be kept shows.
pub fn junk(rng: &mut Rng, length: usize) -> Vec<u64> {
    let base = 100 + rng.below(800);
    (0..length as u64).map(|place| base + place).collect()
}

/// The length of a buffer for a result: enough, more, one short, or none.
pub fn room(rng: &mut Rng, result: usize) -> usize {
    match rng.below(12) {
        0 => result.saturating_sub(1),
        1 => 0,
        2 => rng.place(result + 1),
        3..=6 => result + rng.place(50),
        _ => result,
    }
}
