//! The load against document 02's words: each call by draws of its own, reached from the
//! first s without the draws before, and a Write's dst by the list before it.

use super::{Report, Tally};
use crate::generate::numbers::edge;
use crate::oracle;
use crate::rng::Rng;

/// x becomes a * x + b modulo 2^64.
#[derive(Clone, Copy)]
struct Step {
    a: u64,
    b: u64,
}

const ONE: Step = Step {
    a: 6_364_136_223_846_793_005,
    b: 1_442_695_040_888_963_407,
};

impl Step {
    /// This step, and then that one.
    fn then(self, that: Self) -> Self {
        Self {
            a: that.a.wrapping_mul(self.a),
            b: that.a.wrapping_mul(self.b).wrapping_add(that.b),
        }
    }

    /// This step so many times, by halves.
    fn times(self, n: u64) -> Self {
        match n {
            0 => Self { a: 1, b: 0 },
            n if n % 2 == 1 => self.times(n - 1).then(self),
            n => self.then(self).times(n / 2),
        }
    }

    fn of(self, x: u64) -> u64 {
        self.a.wrapping_mul(x).wrapping_add(self.b)
    }
}

/// Draw n, from 0: it follows step n + 1.
fn draw(s: u64, n: u64) -> u64 {
    ONE.times(n + 1).of(s) >> 32
}

/// Call k, the calls before it being these.
fn call(s: u64, earlier: &[[u64; 5]]) -> [u64; 5] {
    let k = earlier.len() as u64;
    let [kind, count, src, dst] = [0, 1, 2, 3].map(|i| draw(s, 4 * k + i));
    let (kind, count, src) = (kind % 3, count % 33, src % 900);
    let dst = match kind {
        0 => dst % 900,
        1 => src + 8,
        _ => {
            let writes = earlier.iter().filter(|call| call[0] == 2);
            writes.map(|call| call[4]).sum()
        }
    };
    [kind, 4 * k, src, dst, count]
}

pub fn run(report: &mut Report, seed: u64, count: u64) {
    let mut tally = Tally::new("the load by draws of its own");
    let mut rng = Rng::new(seed);
    for _ in 0..count / 100 {
        let s = edge(&mut rng);
        let load = oracle::load(s, rng.below(60));
        let holds = (0..load.len()).all(|k| load[k] == call(s, &load[..k]));
        tally.case(holds, || format!("s {s}: {load:?}"));
    }
    let first = [
        [1, 0, 374, 382, 31],
        [1, 4, 268, 276, 7],
        [1, 8, 806, 814, 16],
        [1, 12, 360, 368, 11],
        [0, 16, 863, 267, 3],
        [0, 20, 375, 677, 1],
    ];
    tally.case(oracle::load(0, 6) == first, || "s 0".into());
    report.add(tally);
}
