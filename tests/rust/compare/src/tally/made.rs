//! Random member lists, and the messages of a day under them.

use super::Prefix;
use crate::messages::{self, parameter};
use crate::random::Random;

/// A list of so many members: prefixes of one another, those that differ in one digit, leading zeros, and 15 digits.
pub fn prefixes(r: &mut Random, count: usize) -> Vec<Prefix> {
    let mut all: Vec<Prefix> = Vec::new();
    let mut first = [&b"4"[..], b"49", b"4917", b"0", b"00", b"000"].into_iter();
    while all.len() < count {
        let mut new = match first.next() {
            Some(prefix) => prefix.to_vec(),
            None => all[r.below(all.len())].clone(),
        };
        if all.len() >= 6 {
            if r.once_in(3) {
                new.truncate(r.below(new.len()));
            }
            let more = if r.once_in(6) { 15 } else { r.below(5) };
            new.extend((0..more).map(|_| b'0' + r.below(10) as u8));
            new.truncate(15);
        }
        if !new.is_empty() && !all.contains(&new) {
            all.push(new);
        }
    }
    for i in (1..count).rev() {
        all.swap(i, r.below(i + 1));
    }
    all
}

/// A title's value: digits that begin with a member's prefix, or nearly. The count is that of the digits, or not.
fn title(r: &mut Random, prefixes: &[Prefix], dirty: bool) -> Vec<u8> {
    let prefix = &prefixes[r.below(prefixes.len())];
    let mut halves: Vec<u8> = prefix.iter().map(|c| c - b'0').collect();
    match r.below(10) {
        0 => halves.truncate(r.below(halves.len())),
        1 => {
            let at = r.below(halves.len());
            halves[at] = r.below(15) as u8;
        }
        2 => halves.clear(),
        _ => {}
    }
    let more = match r.below(40) {
        0 => 255 - halves.len(),
        1..=10 => 0,
        _ => r.below(12),
    };
    halves.extend((0..more).map(|_| r.below(10) as u8));
    if !halves.is_empty() && r.once_in(20) {
        let at = r.below(halves.len());
        halves[at] = 10 + r.below(6) as u8;
    }
    let count = match r.below(16) {
        0 => r.below(halves.len() + 1),
        1 => (halves.len() + r.below(20)).min(255),
        _ => halves.len(),
    };
    let mut out = if dirty { r.octets(3) } else { vec![0; 3] };
    out.extend([r.pick(&[4, 4, 4, 0, 7]), count as u8, r.octet(), 1, 4]);
    for two in halves.chunks(2) {
        let filler = if dirty { r.below(16) as u8 } else { 0 };
        out.push(two[0] + 16 * two.get(1).copied().unwrap_or(filler));
    }
    out
}

/// An address value with no title, one, or two, whatever its include bits say.
fn address(r: &mut Random, prefixes: &[Prefix], dirty: bool) -> Vec<u8> {
    let mut out =
        vec![0, r.below(5) as u8, if dirty { r.octet() } else { 0 }, if dirty { r.octet() } else { r.below(8) as u8 }];
    for _ in 0..r.pick(&[0, 1, 1, 1, 1, 1, 1, 2]) {
        if r.once_in(4) {
            let tag = r.pick(&[0x8002, 0x8003, 0x8005]);
            let value = r.octets(4);
            out.extend(parameter(r, tag, &value, dirty));
        }
        let value = title(r, prefixes, dirty);
        out.extend(parameter(r, 0x8001, &value, dirty));
    }
    out
}

/// Parameters of a message: addresses, data and others, in any number and order.
fn parameters(r: &mut Random, prefixes: &[Prefix], dirty: bool) -> Vec<(u16, Vec<u8>)> {
    let count = r.below(7);
    let mut list: Vec<(u16, Vec<u8>)> = (0..count)
        .map(|_| {
            let other = messages::tag(r);
            let tag = r.pick(&[0x0103, 0x0103, 0x0103, 0x010B, 0x010B, 0x0102, other]);
            let value = match tag {
                0x0102 | 0x0103 if r.once_in(12) => messages::address(r, dirty, true),
                0x0102 | 0x0103 => address(r, prefixes, dirty),
                _ => messages::value(r, tag, dirty, false),
            };
            (tag, value)
        })
        .collect();
    if r.once_in(1_000) {
        list.push((0x010B, vec![0x41; 65_531]));
    }
    list
}

fn put(r: &mut Random, (class, msg_type): (u8, u8), list: &[(u16, Vec<u8>)], dirty: bool) -> Vec<u8> {
    let mut out = vec![1, 0, class, msg_type, 0, 0, 0, 0];
    for (tag, value) in list {
        out.extend(parameter(r, *tag, value, dirty));
    }
    out
}

/// A message: mostly a CLDT for members, whole or spoilt; else of another type, any message, or one at a bound.
pub fn message(r: &mut Random, prefixes: &[Prefix]) -> Vec<u8> {
    if r.once_in(2_000) {
        return messages::large(r);
    }
    if r.once_in(8) {
        return messages::message(r);
    }
    let dirty = r.once_in(2);
    let pair = if r.once_in(8) { messages::pair(r) } else { (7, 1) };
    let list = parameters(r, prefixes, dirty);
    let mut out = put(r, pair, &list, dirty);
    if r.once_in(12) {
        messages::spoil(r, &mut out);
    }
    out
}

/// A CLDT for members with 65,531 octets of data.
pub fn longest(r: &mut Random, prefixes: &[Prefix]) -> Vec<u8> {
    let list = [(0x0103, address(r, prefixes, false)), (0x010B, vec![0x41; 65_531])];
    put(r, (7, 1), &list, false)
}
