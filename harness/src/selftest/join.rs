//! The join against document 02's words: of all ways to put two lists of calls into one, each
//! list's own order kept, exactly one is in order and has the first list's calls ahead at equal
//! stamps, and it is the oracle's.

use super::{Report, Tally};
use crate::oracle;
use crate::oracle::records::HANDED;
use crate::rng::Rng;

type Call = [u64; HANDED];

/// Both lists have at most so many calls: 70 ways.
const LONGEST: u64 = 4;

/// A call, and whether it is of the first list.
type Sided = (Call, bool);

pub fn run(report: &mut Report, seed: u64, count: u64) {
    let mut tally = Tally::new("the join is the only list that document 02's words admit");
    let mut rng = Rng::new(seed);
    for _ in 0..count / 100 {
        let [first, second] = [(); 2].map(|()| list(&mut rng));
        let numbers = [first.concat(), second.concat()];
        let mut joined = vec![0; numbers[0].len() + numbers[1].len()];
        let answer = oracle::join_calls(&numbers[0], &numbers[1], &mut joined);
        let ways = ways(&first, &second);
        let all = ways.len();
        let admitted: Vec<Vec<Sided>> = ways.into_iter().filter(|way| is_admitted(way)).collect();
        let only = match &admitted[..] {
            [way] => way.iter().flat_map(|(call, _)| *call).eq(joined),
            _ => false,
        };
        tally.case(only && answer.number == 0, || {
            format!("{first:?}, {second:?}")
        });
        tally.saw(format!("{all:02} ways"));
    }
    report.add(tally);
}

/// In order, with few different stamps; a call's dst tells it apart, except now and then.
fn list(rng: &mut Rng) -> Vec<Call> {
    let alike = rng.once_in(4);
    let mut stamp = 0;
    let length = rng.below(LONGEST + 1) as usize;
    rng.many(length, |rng| {
        stamp += rng.pick(&[0, 0, 1]);
        let dst = if alike { 0 } else { rng.number() };
        [0, stamp, 0, dst, 0]
    })
}

/// All ways, by the list of the first call.
fn ways(first: &[Call], second: &[Call]) -> Vec<Vec<Sided>> {
    if first.is_empty() && second.is_empty() {
        return vec![vec![]];
    }
    let mut all = Vec::new();
    if let Some((&call, rest)) = first.split_first() {
        all.extend(
            ways(rest, second)
                .into_iter()
                .map(|way| ahead((call, true), way)),
        );
    }
    if let Some((&call, rest)) = second.split_first() {
        all.extend(
            ways(first, rest)
                .into_iter()
                .map(|way| ahead((call, false), way)),
        );
    }
    all
}

fn ahead(call: Sided, mut way: Vec<Sided>) -> Vec<Sided> {
    way.insert(0, call);
    way
}

/// In order, and no call of the second list before one of the first with the same stamp.
fn is_admitted(way: &[Sided]) -> bool {
    let in_order = way.windows(2).all(|pair| pair[0].0[1] <= pair[1].0[1]);
    let pairs = (0..way.len()).flat_map(|i| (i + 1..way.len()).map(move |j| (way[i], way[j])));
    let mut behind = pairs.filter(|(a, b)| !a.1 && b.1 && a.0[1] == b.0[1]);
    in_order && behind.next().is_none()
}
