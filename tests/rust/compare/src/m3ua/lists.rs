//! Random flat lists for `encode`: those that are written, and those that are refused.

use super::made::{anywhere, filling, list, pair, short_list, tag, unknown_pair, List};
use crate::messages::push_flat;
use crate::oracle::{MOST_OCTETS, MOST_VALUE};
use crate::random::Random;

/// A pair for `encode`: known mostly.
pub fn any_pair(r: &mut Random) -> (u8, u8) {
    if r.once_in(6) {
        unknown_pair(r)
    } else {
        pair(r)
    }
}

fn flat(list: &[(u16, Vec<u8>)]) -> Vec<u8> {
    let mut out = Vec::new();
    for (tag, value) in list {
        push_flat(&mut out, *tag, value);
    }
    out
}

/// A flat list for `encode`, finished or not. It may have Protocol Data of any length.
pub fn flat_list(r: &mut Random) -> Vec<u8> {
    let list = if r.once_in(4) { short_list(r) } else { list(r) };
    let mut out = flat(&list);
    match r.below(8) {
        0 => unfinish(r, &mut out, &list),
        1 if !out.is_empty() => {
            let at = r.below(out.len());
            out[at] = r.octet();
        }
        _ => {}
    }
    out
}

/// Leaves the last record of a list unfinished: in its tag, in its length, or in its value by one octet or more.
fn unfinish(r: &mut Random, out: &mut Vec<u8>, list: &[(u16, Vec<u8>)]) {
    let Some((_, last)) = list.last() else { return };
    let start = out.len() - last.len() - 6;
    match r.below(4) {
        0 => out.truncate(start + 1 + r.below(5)),
        1 => out.truncate(out.len() - 1),
        2 => out.truncate(start + 1 + r.below(5 + last.len())),
        _ => out[start + 2..start + 6].copy_from_slice(&r.pick(&[u32::MAX, 1 << 31, 65_536]).to_be_bytes()),
    }
}

/// A flat list with a value of 65,531 octets, one octet more, or more, or with two such values.
fn long_list(r: &mut Random) -> List {
    let mut list = list(r);
    for _ in 0..1 + r.below(2) {
        let more = r.below(70_000);
        let n = r.pick(&[MOST_VALUE - 1, MOST_VALUE, MOST_VALUE, MOST_VALUE + 1, MOST_VALUE + 1, MOST_VALUE + more]);
        let (tag, at) = (tag(r), anywhere(r, &list));
        list.insert(at, (tag, vec![r.octet(); n]));
    }
    list
}

/// A flat list whose message has 1,048,576 octets, or more, some with a value too long; or that is longer than its message.
fn large_list(r: &mut Random) -> List {
    let more = r.pick(&[0, 4, 4_000]);
    if r.once_in(3) {
        return vec![(tag(r), Vec::new()); (MOST_OCTETS - 8 + more) / 4];
    }
    let mut list = filling(r, MOST_OCTETS - 8 + more);
    if r.once_in(4) {
        let at = anywhere(r, &list);
        list.insert(at, (tag(r), vec![r.octet(); MOST_VALUE + 1]));
    }
    list
}

/// A flat list, now and then one at a bound.
pub fn any_list(r: &mut Random) -> Vec<u8> {
    let list = match r.below(1_000) {
        0 => large_list(r),
        1..=8 => long_list(r),
        _ => return flat_list(r),
    };
    let mut out = flat(&list);
    if r.once_in(5) {
        unfinish(r, &mut out, &list);
    }
    out
}
