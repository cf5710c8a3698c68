//! Elements of the field as a good Rust program would have them: numbers below p, one
//! machine product and a reduction by 2^64 = 2^32 - 1 and 2^96 = -1, no division.

use crate::oracle::PRIME;

/// 2^64 modulo p.
const EPSILON: u64 = 0xFFFF_FFFF;

/// 2^-32 modulo p.
pub const INV_SHIFT_32: u64 = 18_446_744_065_119_617_026;

/// Any 128-bit number modulo p. The sum of its two parts is below 2p, so that one
/// comparison makes it an element.
#[inline(always)]
fn reduce(product: u128) -> u64 {
    let (low, high) = (product as u64, (product >> 64) as u64);
    add(sub(low, high >> 32), (high & EPSILON) * EPSILON)
}

#[inline(always)]
pub fn mul(a: u64, b: u64) -> u64 {
    reduce(u128::from(a) * u128::from(b))
}

#[inline(always)]
pub fn add(a: u64, b: u64) -> u64 {
    sub(a, PRIME - b)
}

#[inline(always)]
pub fn sub(a: u64, b: u64) -> u64 {
    let (difference, borrows) = a.overflowing_sub(b);
    if borrows {
        difference.wrapping_add(PRIME)
    } else {
        difference
    }
}
