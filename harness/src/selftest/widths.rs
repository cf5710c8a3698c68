//! The executor's rule against document 02's words, byte by byte, and its two cases.

use super::{Report, Tally};
use crate::generate::numbers::edge;
use crate::oracle::row_widths;
use crate::rng::Rng;
use executor::vm::instruction::execution::copy_row_width;

const PAGE: u128 = 4096;

/// A place near a multiple of 4,096, or any.
fn place(rng: &mut Rng) -> u64 {
    match rng.below(4) {
        0 => edge(rng),
        _ => (4096 * rng.below(20))
            .wrapping_add(rng.below(30))
            .wrapping_sub(15),
    }
}

/// Whether one of the eight bytes from `start` on lies below a multiple of 4,096 and another
/// does not.
fn both_sides(start: u128) -> bool {
    let bytes = || start..start + 8;
    let multiples = (start / PAGE..=start / PAGE + 2).map(|k| PAGE * k);
    let mut split = multiples.map(|m| bytes().any(|b| b < m) && bytes().any(|b| b >= m));
    split.any(|split| split)
}

pub fn run(report: &mut Report, seed: u64, count: u64) {
    let mut tally = Tally::new("widths byte by byte");
    let mut rng = Rng::new(seed);
    for _ in 0..count {
        let [src, dst] = [place(&mut rng), place(&mut rng)];
        let [offset, remaining] = [rng.below(20), rng.below(20)];
        let is_write = rng.once_in(3);
        let width = copy_row_width(src, dst, offset, remaining, is_write);
        // The row's own places wrap, as the original's do.
        let crosses = |start: u64| both_sides(u128::from(start.wrapping_add(offset)));
        let wide = remaining >= 8 && !crosses(src) && (is_write || !crosses(dst));
        tally.case(width == if wide { 8 } else { 1 }, || {
            format!("{src} {dst} {offset} {remaining} {is_write}: {width}")
        });
        tally.saw(width);
    }
    for (src, widths) in [(4088, vec![8]), (4089, vec![1; 8])] {
        tally.case(row_widths(0, src, 0, 8) == widths, || format!("from {src}"));
    }
    report.add(tally);
}
