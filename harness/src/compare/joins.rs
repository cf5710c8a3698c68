//! Loads joined: two loads of 65,536 calls, as the proved code makes them, become one list of
//! 131,072, call by call in turn, since both have the stamps 4 × k. And the register step
//! afterwards: two Write calls that it takes, each alone, and refuses with 4 in the joined
//! order.

use crate::exported;
use crate::oracle::LIST_LIMIT;
use crate::oracle::records::HANDED;
use crate::rng::Rng;

/// The functions that this takes, beside the join.
const FUNCTIONS: [&str; 3] = [
    "generate_load",
    "new_register_state",
    "collect_copy_register_ops",
];

/// What was seen, or what was not as it should be.
pub fn run(seed: u64) -> Result<String, String> {
    if let Some(name) = FUNCTIONS.iter().find(|name| !exported::has(name)) {
        return Err(format!("joins of loads: no {name}"));
    }
    let calls = joined_loads(seed)?;
    let steps = [day(), evening(), joined()?].map(|calls| steps(&calls));
    if steps != [vec![0], vec![0], vec![0, 4]] {
        return Err(format!("steps of the joined list: {steps:?}"));
    }
    Ok(format!(
        "    two loads of 65,536 joined: {calls} calls; two Writes joined: the later one meets 4\n"
    ))
}

fn joined_loads(seed: u64) -> Result<usize, String> {
    let mut rng = Rng::new(seed);
    let loads = [(); 2].map(|()| {
        let mut load = vec![0; HANDED * LIST_LIMIT];
        exported::generate_load(rng.number(), LIST_LIMIT as u64, &mut load);
        load
    });
    let mut list = vec![7; 2 * HANDED * LIST_LIMIT + 1];
    let answer = exported::join_calls(&loads[0], &loads[1], &mut list);
    let both = loads[0].chunks(HANDED).zip(loads[1].chunks(HANDED));
    let mut expected: Vec<u64> = both.flat_map(|(a, b)| [a, b].concat()).collect();
    expected.push(7);
    let calls = 2 * LIST_LIMIT;
    if (answer.number, answer.value) != (0, calls as u64) || list != expected {
        return Err(format!("two loads joined: {answer:?}"));
    }
    // As a list that goes in it is too long.
    let again = exported::join_calls(&list[..HANDED * calls], &[], &mut []);
    if (again.number, again.place, again.value) != (8, 0, 0) {
        return Err(format!("the joined list joined again: {again:?}"));
    }
    Ok(calls)
}

fn day() -> Vec<u64> {
    vec![2, 4, 0, 0, 1]
}

fn evening() -> Vec<u64> {
    vec![2, 8, 0, 0, 1]
}

fn joined() -> Result<Vec<u64>, String> {
    let mut list = vec![0; 2 * HANDED];
    let answer = exported::join_calls(&day(), &evening(), &mut list);
    match answer.number {
        0 => Ok(list),
        _ => Err(format!("two Writes joined: {answer:?}")),
    }
}

/// The numbers that the register steps answer, from a state in which x10 holds 1.
fn steps(calls: &[u64]) -> Vec<u64> {
    let mut state = [0; 68];
    exported::new_register_state(0, 0, &mut state);
    state[10] = 1;
    let mut step = |call: &[u64]| {
        let mut records = [0; 116];
        let [kind, stamp, src, dst, count] = [0, 1, 2, 3, 4].map(|i| call[i]);
        exported::collect_copy_register_ops(kind, stamp, src, dst, count, &mut state, &mut records)
            .number
    };
    calls.chunks(HANDED).map(&mut step).collect()
}
