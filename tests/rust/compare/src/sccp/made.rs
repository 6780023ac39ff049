//! Random address values of SUA: those that convert, those that break one condition, and any.

use super::plain::{packed, DIGITS};
use crate::messages::{self, parameter};
use crate::oracle::MOST_OCTETS;
use crate::random::Random;
use sua::address::{GlobalTitle, RoutingIndicator, SuaAddress};
use sua::parameter::{tags, Parameter};

const ROUTES: [RoutingIndicator; 2] = [RoutingIndicator::RouteOnGlobalTitle, RoutingIndicator::RouteOnSsnAndPc];
const OTHER_ROUTES: [RoutingIndicator; 3] =
    [RoutingIndicator::Reserved, RoutingIndicator::RouteOnHostname, RoutingIndicator::RouteOnSsnAndIp];

/// A number of digits: few, none, any, or nearly as many as there may be.
pub fn few(r: &mut Random) -> usize {
    match r.below(12) {
        0 => 0,
        1 => 253 + r.below(3),
        2 => r.below(256),
        _ => r.below(20),
    }
}

/// A number up to a bound, which is often met.
pub fn up_to(r: &mut Random, most: u32) -> u32 {
    match r.below(4) {
        0 => most,
        _ => r.next() as u32 % (most + 1),
    }
}

/// A number above a bound, often by one, up to another.
fn over(r: &mut Random, bound: u32, most: u32) -> u32 {
    match r.below(3) {
        0 => bound + 1,
        1 => bound + 1 + r.below(16) as u32,
        _ => bound + 1 + r.next() as u32 % (most - bound),
    }
}

pub fn digits(r: &mut Random, count: usize) -> String {
    let kinds = if r.once_in(3) { 15 } else { 10 };
    (0..count).map(|_| DIGITS.as_bytes()[r.below(kinds)] as char).collect()
}

fn title(r: &mut Random) -> GlobalTitle {
    let (plan, nature, count) = (up_to(r, 15) as u8, up_to(r, 127) as u8, few(r));
    GlobalTitle::new(4, r.octet(), plan, nature, digits(r, count))
}

/// An address that converts.
fn address(r: &mut Random) -> SuaAddress {
    let global_title = (!r.once_in(3)).then(|| title(r));
    let point_code = r.once_in(2).then(|| up_to(r, 16_383));
    let ssn = (!r.once_in(3)).then(|| r.octet());
    SuaAddress {
        routing_indicator: r.pick(&ROUTES),
        include_gt: global_title.is_some(),
        include_pc: point_code.is_some(),
        include_ssn: ssn.is_some(),
        global_title,
        point_code,
        ssn,
        other: Vec::new(),
    }
}

/// The title of an address, which has one then.
fn titled<'a>(r: &mut Random, a: &'a mut SuaAddress) -> &'a mut GlobalTitle {
    a.include_gt = true;
    a.global_title.get_or_insert_with(|| title(r))
}

/// Changes of an address that converts, each so that it does not, by one condition.
const CHANGES: [fn(&mut Random, &mut SuaAddress); 12] = [
    |r, a| a.routing_indicator = r.pick(&OTHER_ROUTES),
    |_, a| a.include_gt = !a.include_gt,
    |_, a| a.include_pc = !a.include_pc,
    |_, a| a.include_ssn = !a.include_ssn,
    |r, a| {
        let n = messages::length(r);
        let tag = r.pick(&[tags::HOSTNAME, tags::IPV4_ADDRESS, tags::IPV6_ADDRESS, tags::SOURCE_ADDRESS, 0, 0xFFFF]);
        a.other.push(Parameter::new(tag, r.octets(n)));
    },
    |r, a| {
        a.include_pc = true;
        a.point_code = Some(over(r, 16_383, u32::MAX));
    },
    |r, a| titled(r, a).gti = r.below(4) as u8,
    |r, a| titled(r, a).gti = over(r, 4, 255) as u8,
    |r, a| titled(r, a).numbering_plan = over(r, 15, 255) as u8,
    |r, a| titled(r, a).nature_of_address = over(r, 127, 255) as u8,
    |r, a| {
        let title = titled(r, a);
        let at = r.below(title.digits.len() + 1);
        title.digits.insert(at, '?');
        title.digits.truncate(255);
    },
    |r, a| {
        let title = titled(r, a);
        title.digits.truncate(254);
        title.digits.push('?');
    },
];

/// A title's value, with any reserved octets, count, filler and octets behind the digits where it is dirty.
fn title_value(r: &mut Random, title: &GlobalTitle, dirty: bool) -> Vec<u8> {
    let mut count = title.digits.len();
    let (mut behind, mut filler, mut reserved) = (Vec::new(), 0, vec![0; 3]);
    if dirty {
        (reserved, filler) = (r.octets(3), r.below(16) as u8);
        match r.below(4) {
            0 => count = (count + r.below(20)).min(255),
            1 => {
                let n = r.below(6);
                behind = r.octets(n);
            }
            _ => {}
        }
    }
    let numbers = [title.gti, count as u8, title.translation_type, title.numbering_plan, title.nature_of_address];
    [&reserved[..], &numbers, &packed(&title.digits, filler), &behind].concat()
}

/// An address in its octets. Where it is dirty, its parts may stand in any order and more than once, with other values in
/// front, and what means nothing holds anything.
fn put(r: &mut Random, a: &SuaAddress, dirty: bool) -> Vec<u8> {
    let mut parts: Vec<(u16, Vec<u8>)> = a.other.iter().map(|p| (p.tag, p.value.clone())).collect();
    let mut part = |tag: u16, mut value: Vec<u8>| {
        if dirty && r.once_in(6) {
            let n = r.below(6);
            value.extend(r.octets(n));
        }
        if dirty && r.once_in(6) {
            parts.insert(0, (tag, r.octets(value.len())));
        }
        let at = if dirty { r.below(parts.len() + 1) } else { parts.len() };
        parts.insert(at, (tag, value));
    };
    a.point_code.into_iter().for_each(|code| part(tags::POINT_CODE, code.to_be_bytes().into()));
    a.ssn.into_iter().for_each(|ssn| part(tags::SUBSYSTEM_NUMBER, vec![0, 0, 0, ssn]));
    if let Some(title) = &a.global_title {
        let value = title_value(r, title, dirty);
        let at = if dirty { r.below(parts.len() + 1) } else { 0 };
        parts.insert(at, (tags::GLOBAL_TITLE, value));
        if dirty && r.once_in(8) {
            let n = 8 + r.below(20);
            parts.insert(0, (tags::GLOBAL_TITLE, r.octets(n)));
        }
    }
    let reserved = if dirty { r.next() as u16 & 0xFFF8 } else { 0 };
    let mut out = a.routing_indicator.value().to_be_bytes().to_vec();
    out.extend((a.address_indicator() | reserved).to_be_bytes());
    for (tag, value) in parts {
        if tag == tags::SUBSYSTEM_NUMBER && dirty {
            let octets = r.octets(3);
            out.extend(parameter(r, tag, &[&octets, &value[3..]].concat(), true));
        } else {
            out.extend(parameter(r, tag, &value, dirty));
        }
    }
    match r.below(8) {
        0 if dirty => out.extend(vec![0xEE; 1 + r.below(3)]),
        1 if dirty => out.truncate(out.len() - r.below(3).min(out.len() - 4)),
        _ => {}
    }
    out
}

/// Cuts a value short, or puts another octet in it.
fn spoil(r: &mut Random, value: &mut Vec<u8>) {
    let at = r.below(value.len());
    match r.below(4) {
        0 => value.truncate(at),
        1 if value.len() >= 8 => value[7] = r.below(12) as u8,
        2 => value[at] = r.octet(),
        _ => value[1] = r.octet(),
    }
}

/// A value of 1,048,576 octets that converts, whose last SSN holds; or with one octet more.
fn large(r: &mut Random) -> Vec<u8> {
    let mut out = vec![0, 1, 0, 3, 0x80, 2, 0, 12, 0, 0, 0x12, 0x34, 1, 2, 3, 4];
    while out.len() < MOST_OCTETS {
        out.extend([0x80, 3, 0, 8, 9, 9, 9, r.octet()]);
    }
    out.extend(r.once_in(2).then_some(0));
    out
}

/// An address value.
pub fn value(r: &mut Random) -> Vec<u8> {
    if r.once_in(5_000) {
        return large(r);
    }
    let (dirty, broken) = (r.once_in(2), r.once_in(2));
    match r.below(24) {
        0 => return messages::address(r, dirty, broken),
        1 => {
            let n = r.below(40);
            return r.octets(n);
        }
        _ => {}
    }
    let mut a = address(r);
    if broken {
        r.pick(&CHANGES)(r, &mut a);
    }
    if r.once_in(12) {
        r.pick(&CHANGES)(r, &mut a);
    }
    let mut out = put(r, &a, dirty);
    if r.once_in(12) {
        spoil(r, &mut out);
    }
    out
}
