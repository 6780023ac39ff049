//! Random tables and sets for `contexts_in`. A call's values and its set are of one small pool of numbers, so that they meet.

use crate::calls::Call;
use crate::generate::{laid_out, lists};
use crate::messages;
use crate::random::Random;
use crate::screen::made::{move_some, spoil, MOST};
use sua::parameter::tags::ROUTING_CONTEXT;

/// The numbers of a set, at most.
const MOST_SET: usize = 64;

/// A call of `contexts_in`.
pub fn call(r: &mut Random) -> Call {
    let pool = pool(r);
    let list = records(r, &pool);
    let set: Vec<u64> = set(r, &pool, &list).into_iter().map(u64::from).collect();
    let (mut columns, values) = laid_out(r, &list);
    move_some(r, &mut columns, values.len());
    let count = spoil(r, &mut columns, values.len());
    let numbers = [vec![count], lists(columns), vec![set.len() as u64], set].concat();
    Call { name: "contexts_in".into(), numbers, octets: vec![values], room: None }
}

/// Numbers, some of them nearly equal to others, or equal with their octets or halves turned around.
fn pool(r: &mut Random) -> Vec<u32> {
    let mut pool = vec![r.next() as u32];
    for _ in 0..1 + r.below(6) {
        let other = r.pick(&pool);
        pool.push(match r.below(6) {
            0 => other.swap_bytes(),
            1 => other.rotate_left(16),
            2 => other ^ 1 << r.below(32),
            3 => r.pick(&[0, 1, u32::MAX]),
            _ => r.next() as u32,
        });
    }
    pool
}

fn records(r: &mut Random, pool: &[u32]) -> Vec<(u16, Vec<u8>)> {
    let count = match r.below(16) {
        0 => r.below(MOST),
        1 => 0,
        2..=4 => 1,
        _ => 1 + r.below(6),
    };
    let mut list: Vec<(u16, Vec<u8>)> = (0..count)
        .map(|_| {
            let tag = match r.below(8) {
                0 | 1 => messages::tag(r),
                2 => ROUTING_CONTEXT ^ 1 << r.below(16),
                _ => ROUTING_CONTEXT,
            };
            (tag, value(r, pool))
        })
        .collect();
    if r.once_in(100) {
        let n = 4 * (262_144 + r.below(3));
        list.insert(0, (ROUTING_CONTEXT, vec![0; n]));
    }
    list
}

/// Numbers of a pool, and now and then the front of one behind them.
fn value(r: &mut Random, pool: &[u32]) -> Vec<u8> {
    let (whole, more) = match r.below(16) {
        0 => (0, 0),
        1 => (0, 1 + r.below(3)),
        2 | 3 => (1 + r.below(4), 1 + r.below(3)),
        4 => (if r.once_in(2) { 16 } else { r.below(16) }, 0),
        5..=7 => (1, 0),
        _ => (2 + r.below(4), 0),
    };
    let mut value: Vec<u8> = (0..whole).flat_map(|_| r.pick(pool).to_be_bytes()).collect();
    value.extend(&r.pick(pool).to_be_bytes()[..more]);
    value
}

/// A set: the first parameter's numbers, all of the pool, either but for one, a few of the pool, or none; in any order.
fn set(r: &mut Random, pool: &[u32], list: &[(u16, Vec<u8>)]) -> Vec<u32> {
    let first = list.iter().find(|(tag, _)| *tag == ROUTING_CONTEXT).map_or(vec![], |(_, value)| super::numbers(value));
    let some = first.first().copied().unwrap_or(pool[0]);
    let but_one = |r: &mut Random, from: &[u32]| {
        let one = if from.is_empty() { some } else { r.pick(from) };
        from.iter().copied().filter(|n| *n != one).collect()
    };
    let mut set: Vec<u32> = match r.below(20) {
        0 => vec![],
        1 => vec![some],
        2 | 3 => vec![r.pick(pool)],
        4 => (0..r.below(8)).map(|_| r.pick(pool)).collect(),
        5 => first.iter().map(|n| n.swap_bytes()).collect(),
        6 | 7 => but_one(r, &first),
        8 | 9 => but_one(r, pool),
        10..=14 => first,
        _ => pool.to_vec(),
    };
    set.sort();
    set.dedup();
    repeat_some(r, &mut set);
    for i in 0..set.len() {
        let other = r.below(set.len());
        set.swap(i, other);
    }
    set
}

/// Puts some numbers of a set into it again, or not.
fn repeat_some(r: &mut Random, set: &mut Vec<u32>) {
    let again = match r.below(32) {
        0 => MOST_SET - set.len(),
        1..=7 => r.below(6),
        _ => 0,
    };
    if !set.is_empty() {
        for _ in 0..again {
            set.push(r.pick(set));
        }
    }
}
