//! Copy rows solved in the field: flags, steps and carries are chosen, and the
//! columns follow modulo p, so that the other residues vanish. With one odd choice a
//! row passes all checks but those that are there to refuse that choice.

use super::calls;
use super::numbers::{edge, element, half, word};
use crate::oracle::PRIME;
use crate::rng::Rng;
use crate::sound::{Call, Piece};
use math::field::element::FieldElement;
use math::field::goldilocks::GoldilocksField;
use original::constraints::templates::INV_SHIFT_32;

type Element = FieldElement<GoldilocksField>;
/// A low and a high part.
type Parts = [Element; 2];

const ONE: Element = Element::one();
const ZERO: Element = Element::zero();

/// What a row is to say, before any odd choice.
pub struct Plan {
    pub rest: Call,
    pub piece: Piece,
    pub first: bool,
    pub end: bool,
    pub live: bool,
}

/// How many of a row's choices are odd.
enum Odds {
    /// The one that so many others precede; there are fewer than 32.
    Once(u64),
    Often,
}

struct Solver<'a> {
    rng: &'a mut Rng,
    odds: Odds,
}

struct Flags {
    first: Element,
    end: Element,
    single: Element,
    is_set: Element,
    is_write: Element,
    mu: Element,
}

/// The planned row with one odd choice, or none.
pub fn solved_once(rng: &mut Rng, gap: u64, plan: &Plan) -> Vec<u64> {
    let odds = Odds::Once(rng.below(32));
    Solver { rng, odds }.row(gap, plan)
}

/// A row of any plan with any number of odd choices.
pub fn solved(rng: &mut Rng, gap: u64) -> Vec<u64> {
    let call = calls::call(rng, gap);
    let (mut rest, piece) = calls::dead_parts(rng);
    rest = match rng.below(3) {
        0 => rest,
        1 => Call {
            count: piece.width,
            ..call
        },
        _ => call,
    };
    let [first, end] = [rng.bit() == 1, rng.bit() == 1];
    let live = !rng.once_in(4);
    let odds = Odds::Often;
    Solver { rng, odds }.row(
        gap,
        &Plan {
            rest,
            piece,
            first,
            end,
            live,
        },
    )
}

fn two_32() -> Element {
    Element::from(1 << 32)
}

impl Solver<'_> {
    /// Whether the choice at hand is an odd one.
    fn odd(&mut self) -> bool {
        match &mut self.odds {
            Odds::Often => self.rng.once_in(20),
            Odds::Once(before) => {
                *before = before.wrapping_sub(1);
                *before == u64::MAX
            }
        }
    }

    fn row(&mut self, gap: u64, plan: &Plan) -> Vec<u64> {
        let flags = self.flags(plan);
        let step = Element::from(8) - Element::from(7) * flags.single;
        let src = self.words(plan.rest.src);
        let dst = match flags.is_set == ZERO {
            true => self.words(plan.rest.dst),
            false => self.added(src, [Element::from(gap), ZERO]),
        };
        let count = self.words(plan.rest.count);
        let (decr, borrow) = self.decreased(count, step);
        let [src_incr, dst_incr] = [src, dst].map(|start| self.added(start, [step, ZERO]));
        let res = if flags.is_write == ZERO {
            dst
        } else {
            self.added(dst, count)
        };

        let stamp = plan.rest.stamp;
        let mut row = vec![stamp % (1 << 32), stamp >> 32];
        row.extend(value(plan, &flags));
        for (words, halves) in [(src, src_incr), (dst, dst_incr), (count, decr)] {
            row.extend(words.map(Element::value));
            row.extend(self.split(halves));
        }
        row.extend(self.split(res));
        row.extend(last_columns(&flags, borrow));
        row
    }

    fn flags(&mut self, plan: &Plan) -> Flags {
        let bit = |flag: bool| Element::from(u64::from(flag));
        let mut flags = Flags {
            first: bit(plan.first && plan.live),
            end: bit(plan.end && plan.live),
            single: bit(plan.piece.width == 1),
            is_set: bit(plan.rest.kind == 1 && plan.live),
            is_write: bit(plan.rest.kind == 2 && plan.live),
            mu: bit(plan.live),
        };
        if self.odd() {
            flags.first = self.odd_flag();
            if !plan.live {
                // In residue 6 a dead row's FIRST and END cancel.
                (flags.first, flags.end) = (ZERO - ONE, ONE);
            }
        }
        if self.odd() {
            flags.end = self.odd_flag();
        }
        if self.odd() {
            flags.single = self.odd_single();
        }
        for flag in [&mut flags.is_set, &mut flags.is_write, &mut flags.mu] {
            if self.odd() {
                *flag = self.odd_flag();
            }
        }
        flags
    }

    /// A flag of the other sort, or no bit.
    fn odd_flag(&mut self) -> Element {
        Element::from(match self.rng.below(3) {
            0 => element(self.rng),
            1 => self.rng.bit(),
            _ => self.rng.pick(&[2, PRIME - 1, 1 << 32, (1 << 32) + 1]),
        })
    }

    /// SINGLE such that the step 8 - 7 SINGLE is another width.
    fn odd_single(&mut self) -> Element {
        const INVERSE_OF_7: u64 = 2_635_249_152_773_512_046;
        let width = match self.rng.below(4) {
            0 => edge(self.rng),
            _ => self.rng.below(20),
        };
        (Element::from(8) - Element::from(width)) * Element::from(INVERSE_OF_7)
    }

    /// The two words of a number; oddly, one of them not a word.
    fn words(&mut self, number: u64) -> Parts {
        let [low, high] = [number % (1 << 32), number >> 32].map(Element::from);
        if !self.odd() {
            return [low, high];
        }
        match self.rng.below(4) {
            0 => [low + two_32(), high - ONE],
            1 => [Element::from(element(self.rng)), high],
            _ => [low, high + two_32()],
        }
    }

    /// The true carry; oddly, the other bit or no bit. With a carry of 2^32 - 1 or its
    /// negative the columns can still be words, (2^32 - 1) * 2^32 being -1 modulo p,
    /// and so they can with a word divided by 2^32.
    fn carry(&mut self, truth: bool) -> Element {
        const SMALL: u64 = (1 << 32) - 1;
        if !self.odd() {
            return Element::from(u64::from(truth));
        }
        match self.rng.below(5) {
            0 => Element::from(u64::from(!truth)),
            1 => Element::from(self.rng.pick(&[2, PRIME - 1])),
            2 => Element::from(self.rng.pick(&[SMALL, PRIME - SMALL])),
            3 => Element::from(word(self.rng)) * Element::from(INV_SHIFT_32),
            _ => Element::from(element(self.rng)),
        }
    }

    /// a + b under chosen carries.
    fn added(&mut self, a: Parts, b: Parts) -> Parts {
        let low = a[0] + b[0];
        let c0 = self.carry(low.value() >= 1 << 32);
        let high = a[1] + b[1] + c0;
        let c1 = self.carry(high.value() >= 1 << 32);
        [low - c0 * two_32(), high - c1 * two_32()]
    }

    /// count - step under chosen borrows, and the high borrow.
    fn decreased(&mut self, count: Parts, step: Element) -> (Parts, Element) {
        let low = count[0] - step;
        let c0 = self.carry(low.value() >= 1 << 32);
        let high = count[1] - c0;
        let c1 = self.carry(high.value() >= 1 << 32);
        ([low + c0 * two_32(), high + c1 * two_32()], c1)
    }

    fn split(&mut self, parts: Parts) -> Vec<u64> {
        parts
            .into_iter()
            .flat_map(|part| self.split_one(part))
            .collect()
    }

    /// Two columns for a part: halves if it is a word, else one of the two is none.
    /// Oddly, another writing of the same word, in which one of the two is none.
    fn split_one(&mut self, part: Element) -> [u64; 2] {
        let mut high = Element::from(part.value() >> 16);
        if part.value() >> 32 != 0 && self.rng.bit() == 1 {
            high = Element::from(half(self.rng));
        }
        if self.odd() {
            let low = Element::from(half(self.rng));
            let inverse = Element::from(1 << 16) * Element::from(INV_SHIFT_32);
            let either = [high - ONE, (part - low) * inverse];
            high = self.rng.pick(&either);
        }
        [(part - Element::from(1 << 16) * high).value(), high.value()]
    }
}

/// The value bytes, with a zero tail unless SINGLE is 0.
fn value(plan: &Plan, flags: &Flags) -> [u64; 8] {
    let mut value = plan.piece.value;
    if flags.single != ZERO {
        value[1..].fill(0);
    }
    value
}

/// FIRST to MU_COM_WIDE as residues 9, 35 and 36 want them.
fn last_columns(flags: &Flags, borrow: Element) -> [u64; 9] {
    let Flags {
        first,
        end,
        single,
        is_set,
        is_write,
        mu,
    } = *flags;
    let mu_com = (mu - borrow) * is_write;
    let wide = mu_com * (ONE - single);
    [
        first,
        end,
        single,
        is_set,
        is_write,
        first * is_write,
        mu,
        mu_com,
        wide,
    ]
    .map(Element::value)
}
