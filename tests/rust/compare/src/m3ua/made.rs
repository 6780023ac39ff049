//! Random M3UA messages: valid ones of every pair, in which what means nothing is anything, and those that are refused.

use super::plain::{self, DATA, LABEL, PAIRS, PROTOCOL_DATA};
use crate::messages::{self, length};
use crate::oracle::{MOST_OCTETS, MOST_VALUE};
use crate::random::Random;

/// Tags with values.
pub type List = Vec<(u16, Vec<u8>)>;

/// Tags that other user adaptation layers share (RFC 4666, 3.2).
const COMMON: [u16; 10] = [0x0004, 0x0006, 0x0007, 0x0009, 0x000B, 0x000C, 0x000D, 0x0011, 0x0012, 0x0013];
/// Tags of M3UA alone but for Protocol Data.
const OWN: [u16; 12] = [0x0200, 0x0204, 0x0205, 0x0206, 0x0207, 0x0208, 0x0209, 0x020A, 0x020B, 0x020C, 0x0212, 0x0213];
/// Tags that mean something to SUA: hop counter, addresses, data, a title.
const OF_SUA: [u16; 5] = [0x0101, 0x0102, 0x0103, 0x010B, 0x8001];

/// A pair that is known.
pub fn pair(r: &mut Random) -> (u8, u8) {
    if r.once_in(3) {
        DATA
    } else {
        r.pick(&PAIRS)
    }
}

/// A pair that is not: SUA's alone, a type beside those of its class, a class beside those that there are, or any.
pub fn unknown_pair(r: &mut Random) -> (u8, u8) {
    loop {
        let (class, msg_type) = pair(r);
        let drawn = match r.below(6) {
            0 => (7, 1 + r.below(2) as u8),
            1 => (8, 1 + r.below(11) as u8),
            2 => (class, r.pick(&[0, msg_type + 1, msg_type.wrapping_sub(1)])),
            3 => (r.pick(&[5, 6, 7, 8, 10]), msg_type),
            4 => (class, r.octet()),
            _ => (r.octet(), r.octet()),
        };
        if !PAIRS.contains(&drawn) {
            return drawn;
        }
    }
}

pub fn tag(r: &mut Random) -> u16 {
    match r.below(16) {
        0..=4 => PROTOCOL_DATA,
        5 | 6 => r.pick(&OF_SUA),
        7 | 8 => PROTOCOL_DATA ^ 1 << r.below(16),
        9 | 10 => r.pick(&COMMON),
        11 | 12 => r.pick(&OWN),
        13 => r.pick(&[0x0000, 0xFFFF]),
        _ => r.next() as u16,
    }
}

/// A Protocol Data's value of 12 octets or more.
pub fn protocol_data(r: &mut Random) -> Vec<u8> {
    let more = match r.below(8) {
        0 => 0,
        1 => 1 + r.below(4),
        2 => r.below(300),
        _ => r.below(24),
    };
    r.octets(LABEL + more)
}

/// One of under 12 octets.
fn short(r: &mut Random) -> (u16, Vec<u8>) {
    let n = if r.once_in(3) { LABEL - 1 } else { r.below(LABEL) };
    (PROTOCOL_DATA, r.octets(n))
}

/// A value that is not refused.
fn value(r: &mut Random, tag: u16) -> Vec<u8> {
    match tag {
        PROTOCOL_DATA => protocol_data(r),
        0x0102 | 0x0103 if r.once_in(2) => {
            let broken = r.once_in(2);
            messages::address(r, true, broken)
        }
        _ => {
            let n = length(r);
            r.octets(n)
        }
    }
}

/// Tags with values that are not refused.
pub fn list(r: &mut Random) -> List {
    let mut list: List = (0..r.below(7))
        .map(|_| {
            let tag = tag(r);
            (tag, value(r, tag))
        })
        .collect();
    if r.once_in(12) {
        if let Some(twice) = list.last().cloned() {
            list.push(twice);
        }
    }
    list
}

/// A place in a list where one can be put.
pub fn anywhere(r: &mut Random, list: &[(u16, Vec<u8>)]) -> usize {
    let any = r.below(list.len() + 1);
    r.pick(&[0, any, list.len()])
}

/// A list with a Protocol Data that is refused: mostly one alone, with others or without, or several that are.
pub fn short_list(r: &mut Random) -> List {
    let mut list = list(r);
    let several = r.once_in(3);
    for (tag, value) in &mut list {
        if *tag == PROTOCOL_DATA && several && r.once_in(2) {
            value.truncate(r.below(LABEL));
        }
    }
    let at = anywhere(r, &list);
    list.insert(at, short(r));
    list
}

/// The tags with the values lent.
pub fn lent(list: &[(u16, Vec<u8>)]) -> Vec<(u16, &[u8])> {
    list.iter().map(|(tag, value)| (*tag, &**value)).collect()
}

/// A message in which what means nothing is anything: the reserved octet, the declared length and the padding; and the last
/// padding, or some of it, may be missing, or one to three octets stand behind it.
pub fn dirty(r: &mut Random, class: u8, msg_type: u8, parameters: &[(u16, &[u8])]) -> Vec<u8> {
    let mut out = vec![1, r.octet(), class, msg_type];
    out.extend(r.octets(4));
    let mut end = out.len();
    for (tag, value) in parameters {
        end = out.len() + 4 + value.len();
        out.extend(messages::parameter(r, *tag, value, true));
    }
    match r.below(3) {
        0 => out.truncate(end + r.below(out.len() - end + 1)),
        1 => {
            let n = (1 + r.below(3)).min(MOST_OCTETS - out.len());
            out.extend(r.octets(n));
        }
        _ => {}
    }
    out
}

/// A message of a pair and a list: as it would be settled, or with the octets that mean nothing being anything, all or some.
fn made(r: &mut Random, (class, msg_type): (u8, u8), list: &[(u16, Vec<u8>)]) -> Vec<u8> {
    let mut out = plain::written(class, msg_type, &lent(list));
    match r.below(8) {
        0 => {}
        1 => out[1] = r.octet(),
        2 => {
            let n = out.len() as u32;
            let declared = r.pick(&[0, 8, n - 1, n + 1, n - 4, n + 4]);
            out[4..8].copy_from_slice(&declared.to_be_bytes());
        }
        _ => out = dirty(r, class, msg_type, &lent(list)),
    }
    out
}

/// A message that is accepted.
fn valid(r: &mut Random) -> Vec<u8> {
    let (pair, list) = (pair(r), list(r));
    made(r, pair, &list)
}

/// A message with the length of one parameter, the first, the last or any, altered by a function that is given the octets from
/// its tag to the end.
fn with_length(r: &mut Random, list: &[(u16, Vec<u8>)], length: impl FnOnce(&mut Random, usize) -> usize) -> Vec<u8> {
    let pair = pair(r);
    let mut list = list.to_vec();
    if list.is_empty() {
        let tag = tag(r);
        list.push((tag, value(r, tag)));
    }
    let mut out = made(r, pair, &list);
    let i = anywhere(r, &list).min(list.len() - 1);
    let at: usize = 8 + list[..i].iter().map(|(_, value)| (4 + value.len()).next_multiple_of(4)).sum::<usize>();
    let length = length(r, out.len() - at).min(65_535) as u16;
    out[at + 2..at + 4].copy_from_slice(&length.to_be_bytes());
    out
}

/// A message with a parameter that is refused as 5.
fn under_four(r: &mut Random, list: &[(u16, Vec<u8>)]) -> Vec<u8> {
    with_length(r, list, |r, _| r.below(4))
}

/// A message with a parameter that is refused as 6, mostly by one octet.
fn beyond(r: &mut Random, list: &[(u16, Vec<u8>)]) -> Vec<u8> {
    with_length(r, list, |r, left| {
        let more = r.below(1_000);
        left + r.pick(&[1, 1, 1, 2, 3, more, 65_535])
    })
}

/// A message whose last value is cut: by one octet, or by more.
fn cut(r: &mut Random, list: &[(u16, Vec<u8>)]) -> Vec<u8> {
    let pair = pair(r);
    let mut list = list.to_vec();
    if r.once_in(3) {
        list.push(if r.once_in(2) { short(r) } else { (PROTOCOL_DATA, protocol_data(r)) });
    }
    let mut out = plain::written(pair.0, pair.1, &lent(&list));
    if let Some((_, value)) = list.last().filter(|(_, value)| !value.is_empty()) {
        let end = out.len() - (4 - value.len() % 4) % 4;
        let by = if r.once_in(2) { 1 } else { 1 + r.below(value.len()) };
        out.truncate(end - by);
    }
    out
}

/// A message with a parameter that is refused as 5 or 6.
fn walk_refused(r: &mut Random, list: &[(u16, Vec<u8>)]) -> Vec<u8> {
    match r.below(3) {
        0 => under_four(r, list),
        1 => beyond(r, list),
        _ => cut(r, list),
    }
}

/// A message that is refused, or nearly.
fn spoilt(r: &mut Random) -> Vec<u8> {
    match r.below(13) {
        0 => {
            let mut out = valid(r);
            out.truncate(r.below(9));
            if let Some(version) = out.first_mut().filter(|_| r.once_in(3)) {
                *version = r.octet();
            }
            out
        }
        1 => {
            let mut out = if r.once_in(2) { valid(r) } else { of_unknown_pair(r) };
            let any = r.octet();
            out[0] = r.pick(&[0, 2, 255, any]);
            out
        }
        2 | 3 => of_unknown_pair(r),
        4..=6 => {
            let list = list(r);
            walk_refused(r, &list)
        }
        7 | 8 => {
            let (pair, list) = (pair(r), short_list(r));
            made(r, pair, &list)
        }
        9 => {
            let list = short_list(r);
            walk_refused(r, &list)
        }
        10 => {
            let mut out = valid(r);
            if r.once_in(2) {
                out.truncate(r.below(out.len() + 1));
            } else {
                let at = r.below(out.len());
                out[at] = r.octet();
            }
            out
        }
        11 => {
            let n = r.below(40);
            r.octets(n)
        }
        _ => messages::message(r),
    }
}

/// A message of an unknown pair, nothing else being wrong with it, or something.
fn of_unknown_pair(r: &mut Random) -> Vec<u8> {
    let mut out = match r.below(4) {
        0 => {
            let list = list(r);
            walk_refused(r, &list)
        }
        1 => {
            let (pair, list) = (pair(r), short_list(r));
            made(r, pair, &list)
        }
        _ => valid(r),
    };
    let (class, msg_type) = unknown_pair(r);
    out[2..4].copy_from_slice(&[class, msg_type]);
    out
}

/// A message, accepted or refused.
pub fn message(r: &mut Random) -> Vec<u8> {
    if r.once_in(2) {
        valid(r)
    } else {
        spoilt(r)
    }
}

/// A list that takes just so many octets with its padding, a multiple of 4.
pub fn filling(r: &mut Random, octets: usize) -> List {
    let mut list = List::new();
    let mut left = octets;
    while left > 0 {
        let n = if left > 65_532 { 65_532 - 4 * r.below(3) } else { left };
        let tag = if n < 16 { 0x0101 } else { tag(r) };
        list.push((tag, vec![r.octet(); n - 4]));
        left -= n;
    }
    list
}

/// A message with a value of 65,531 octets, or nearly.
fn long(r: &mut Random) -> Vec<u8> {
    let n = r.pick(&[MOST_VALUE, MOST_VALUE, MOST_VALUE - 1, MOST_VALUE - 3]);
    let tag = r.pick(&[PROTOCOL_DATA, 0x0102, 0x0004]);
    let (pair, mut list) = (pair(r), list(r));
    let at = anywhere(r, &list);
    list.insert(at, (tag, r.octets(n)));
    made(r, pair, &list)
}

/// A message of 1,048,576 octets, or of more, with nothing else wrong or with something; or of as many parameters as there can be.
fn large(r: &mut Random) -> Vec<u8> {
    let (class, msg_type) = pair(r);
    if r.once_in(4) {
        let list = vec![(tag(r) | 1, Vec::new()); (MOST_OCTETS - 8) / 4];
        return plain::written(class, msg_type, &lent(&list));
    }
    let mut list = filling(r, MOST_OCTETS - 8);
    let more = r.pick(&[0, 1, 1, 2, 4, 4_000]);
    let wrong = if more > 0 { r.below(6) } else { 5 };
    if wrong == 0 {
        list[0] = short(r);
    }
    let mut out = dirty(r, class, msg_type, &lent(&list));
    out.resize(MOST_OCTETS + more, 0x41);
    match wrong {
        1 => out[0] = r.octet(),
        2 => {
            let (class, msg_type) = unknown_pair(r);
            out[2..4].copy_from_slice(&[class, msg_type]);
        }
        3 => out[10..12].copy_from_slice(&[0, 3]),
        _ => {}
    }
    out
}

/// A message, now and then one at a bound.
pub fn any_message(r: &mut Random) -> Vec<u8> {
    match r.below(2_000) {
        0 => large(r),
        1..=5 => long(r),
        _ => message(r),
    }
}
