//! Random messages and their parts: well-formed, dirty where nothing is meant, and broken in every way that is refused.

use crate::random::Random;

/// The 35 pairs of class and type (RFC 3868, 3.1.3), as ranges of types.
const PAIRS: [(u8, u8, u8); 7] = [(0, 0, 1), (2, 1, 6), (3, 1, 6), (4, 1, 4), (7, 1, 2), (8, 1, 11), (9, 1, 4)];

/// Tags that accessors, addresses and constructors know, and some that nobody does.
const TAGS: [u16; 22] = [
    0x0004, 0x0006, 0x0007, 0x0009, 0x000B, 0x000C, 0x000D, 0x0011, 0x0012, 0x0101, 0x0102, 0x0103, 0x0106, 0x010B, 0x0115,
    0x0116, 0x8001, 0x8002, 0x8003, 0x8005, 0xFFFF, 0x0000,
];

pub fn pair(r: &mut Random) -> (u8, u8) {
    let (class, low, high) = if r.once_in(3) { (7, 1, 2) } else { r.pick(&PAIRS) };
    (class, low + r.below(usize::from(high - low) + 1) as u8)
}

/// A pair that is known, or nearly.
pub fn any_pair(r: &mut Random) -> (u8, u8) {
    match r.below(8) {
        0 => (r.below(11) as u8, r.below(13) as u8),
        1 => (r.octet(), r.octet()),
        _ => pair(r),
    }
}

pub fn tag(r: &mut Random) -> u16 {
    if r.once_in(8) {
        r.next() as u16
    } else {
        r.pick(&TAGS)
    }
}

/// A short length, now and then a longer one.
pub fn length(r: &mut Random) -> usize {
    match r.below(16) {
        0 => r.below(200),
        1 => 3,
        2 => 5,
        3 | 4 => r.below(20),
        5 => 0,
        _ => 4,
    }
}

/// A parameter in its octets. The padding holds anything where it is dirty.
pub fn parameter(r: &mut Random, tag: u16, value: &[u8], dirty: bool) -> Vec<u8> {
    let mut out = tag.to_be_bytes().to_vec();
    out.extend(((value.len() + 4) as u16).to_be_bytes());
    out.extend(value);
    while out.len() % 4 != 0 {
        out.push(if dirty { r.octet() } else { 0 });
    }
    out
}

/// Adds a parameter to a flat list.
pub fn push_flat(list: &mut Vec<u8>, tag: u16, value: &[u8]) {
    list.extend(tag.to_be_bytes());
    list.extend((value.len() as u32).to_be_bytes());
    list.extend(value);
}

/// A title's value. Half octets of 15 are rare enough that most titles can be written again.
pub fn title(r: &mut Random, dirty: bool) -> Vec<u8> {
    let digits = match r.below(12) {
        0 => r.below(256),
        1 => 0,
        _ => r.below(20),
    };
    let most = if r.once_in(12) { 16 } else { 15 };
    let mut out = if dirty { r.octets(3) } else { vec![0; 3] };
    out.extend([r.pick(&[4, 4, 0, 7]), digits as u8, r.octet(), 1, 4]);
    for _ in 0..digits / 2 {
        out.push((r.below(most) + 16 * r.below(most)) as u8);
    }
    if digits % 2 == 1 {
        let filler = if dirty { r.below(16) } else { 0 };
        out.push((r.below(most) + 16 * filler) as u8);
    }
    match r.below(10) {
        0 => out[4] = r.octet(),
        1 => out.extend(r.octets(3)),
        2 => out.truncate(8 + r.below(out.len() - 7)),
        _ => {}
    }
    out
}

/// A title's value that ran short, mostly by few digits, or that did not.
pub fn running_short(r: &mut Random, dirty: bool, short: bool) -> Vec<u8> {
    let mut out = title(r, dirty);
    out.truncate(8 + 127);
    let there = 2 * (out.len() - 8);
    if short {
        let most = 255 - there;
        let more = if r.once_in(4) { most } else { most.min(4) };
        out[4] = (there + 1 + r.below(more)) as u8;
    } else {
        out[4] = out[4].min(there as u8);
    }
    out
}

/// An address value of two titles, of which one, the first or the last, ran short. Each may have another part behind it.
pub fn two_titles(r: &mut Random, dirty: bool) -> Vec<u8> {
    let mut out = address_head(r, dirty, false);
    let first = r.once_in(2);
    for short in [first, !first] {
        let value = running_short(r, dirty, short);
        out.extend(parameter(r, 0x8001, &value, dirty));
        if r.once_in(2) {
            let (tag, value) = (r.pick(&[0x8002, 0x8003, 0x8005]), r.octets(4));
            out.extend(parameter(r, tag, &value, dirty));
        }
    }
    out
}

/// The routing indicator and the address indicator of an address value.
fn address_head(r: &mut Random, dirty: bool, broken: bool) -> Vec<u8> {
    let routing = if broken && r.once_in(6) { r.next() as u16 } else { r.below(5) as u16 };
    let mut out = routing.to_be_bytes().to_vec();
    let high = if dirty { r.octet() } else { 0 };
    let bits = if dirty { r.octet() } else { r.below(8) as u8 };
    out.extend([high, bits]);
    out
}

/// An address value. Broken ones are refused by its reading.
pub fn address(r: &mut Random, dirty: bool, broken: bool) -> Vec<u8> {
    let mut out = address_head(r, dirty, broken);
    for _ in 0..r.below(5) {
        let other = tag(r);
        let tag = r.pick(&[0x8001, 0x8001, 0x8002, 0x8003, 0x8003, 0x8004, 0x8005, 0x8006, 0x0102, other]);
        let value = match tag {
            0x8001 => title(r, dirty),
            0x8002 | 0x8003 => {
                let n = if r.once_in(8) { 4 + r.below(4) } else { 4 };
                r.octets(n)
            }
            _ => {
                let n = length(r);
                r.octets(n)
            }
        };
        let value = if broken && r.once_in(4) { value[..r.below(value.len() + 1)].to_vec() } else { value };
        let mut sub = parameter(r, tag, &value, dirty);
        if broken && r.once_in(6) {
            sub[3] = if r.once_in(2) { r.below(6) as u8 } else { r.octet() };
        }
        out.extend(sub);
    }
    if broken && r.once_in(4) {
        out.truncate(r.below(out.len() + 1));
    }
    if dirty && r.once_in(4) {
        let n = r.below(4);
        out.extend(r.octets(n));
    }
    out
}

/// A parameter's value: an address where its tag says so, else octets.
pub fn value(r: &mut Random, tag: u16, dirty: bool, broken: bool) -> Vec<u8> {
    match tag {
        0x0102 | 0x0103 => address(r, dirty, broken),
        0x0012 => {
            let n = 4 * r.below(5) + if r.once_in(4) { r.below(4) } else { 0 };
            r.octets(n)
        }
        _ => {
            let n = length(r);
            r.octets(n)
        }
    }
}

/// A list of parameters.
pub fn list(r: &mut Random, dirty: bool, broken: bool) -> Vec<(u16, Vec<u8>)> {
    (0..r.below(8))
        .map(|_| {
            let tag = if r.once_in(3) { r.pick(&[0x0102, 0x0103, 0x010B, 0x0006]) } else { tag(r) };
            (tag, value(r, tag, dirty, broken))
        })
        .collect()
}

fn header(r: &mut Random, dirty: bool) -> Vec<u8> {
    let (class, msg_type) = pair(r);
    let mut out = vec![1, if dirty { r.octet() } else { 0 }, class, msg_type];
    out.extend(if dirty { r.octets(4) } else { vec![0; 4] });
    out
}

/// A message, broken or not.
pub fn message(r: &mut Random) -> Vec<u8> {
    let dirty = r.once_in(2);
    let broken = r.once_in(3);
    let mut out = header(r, dirty);
    for (tag, value) in list(r, dirty, broken) {
        out.extend(parameter(r, tag, &value, dirty));
    }
    if !dirty {
        let n = (out.len() as u32).to_be_bytes();
        out[4..8].copy_from_slice(&n);
    }
    if dirty && r.once_in(3) {
        let n = r.below(4);
        out.extend(r.octets(n));
    }
    if broken {
        spoil(r, &mut out);
    }
    out
}

/// Breaks a message in one of the ways that are refused, or in none.
pub fn spoil(r: &mut Random, out: &mut Vec<u8>) {
    match r.below(12) {
        0 => out.truncate(r.below(out.len() + 1)),
        1 => out[0] = r.octet(),
        2 => out[2] = r.octet(),
        3 => out[3] = r.octet(),
        4 => {
            let tag = tag(r).to_be_bytes();
            out.extend([tag[0], tag[1], 0, r.below(6) as u8]);
        }
        5 => {
            let tag = tag(r).to_be_bytes();
            out.extend([tag[0], tag[1], r.below(2) as u8, r.octet()]);
        }
        6 | 7 => {
            let at = r.below(out.len());
            out[at] = r.octet();
        }
        8 => {
            let n = r.below(40);
            *out = r.octets(n);
        }
        _ => {}
    }
}

/// A message at a bound: of 1,048,576 octets or a little more; or with an address that takes more octets than a value can
/// have (S13), or just as many.
pub fn large(r: &mut Random) -> Vec<u8> {
    let mut out = header(r, false);
    if r.once_in(2) {
        let over = r.below(4);
        while out.len() < 1_048_576 {
            let left = 1_048_576 - out.len();
            let n = if left > 65_536 { 65_532 - 4 * r.below(3) - 4 } else { left - 4 };
            out.extend(parameter(r, 0x010B, &vec![0x41; n.min(65_531)], false));
        }
        out.extend(vec![0; over]);
    } else {
        let value = large_address(r);
        let tag = 0x0102 + r.below(2) as u16;
        out.extend(parameter(r, tag, &value, false));
    }
    out
}

/// An address value whose other takes nearly all of it: written again it is too long, or just not (S13).
pub fn large_address(r: &mut Random) -> Vec<u8> {
    let n = 65_516 + r.below(8);
    let mut value = vec![0, 2, 0, 0];
    value.extend(parameter(r, 0x8005, &vec![0x42; n], false));
    value.truncate(65_531);
    value
}
