//! SS7 hop counters, which are in no settled form: copies of a message that differ in them alone, and what must be met of them.

use crate::messages;
use crate::oracle::{
    is_address, is_hop_counter, length_with_counters, other_places, places, read_message, Answer, MOST_OCTETS,
};
use crate::random::Random;
use sua::parameter::{decode_parameters, tags};

/// A counter's value: mostly of four octets.
fn value(r: &mut Random) -> Vec<u8> {
    let n = if r.once_in(2_000) { 65_531 } else { messages::length(r) };
    r.octets(n)
}

/// A message at a bound, some of whose data are counters.
pub fn large(r: &mut Random) -> Vec<u8> {
    let mut out = messages::large(r);
    let mut at = 8;
    while at + 4 <= out.len() {
        if out[at..at + 2] == tags::DATA.to_be_bytes() && r.once_in(4) {
            out[at..at + 2].copy_from_slice(&tags::SS7_HOP_COUNTER.to_be_bytes());
        }
        at += (usize::from(u16::from_be_bytes([out[at + 2], out[at + 3]])) + 3) / 4 * 4;
    }
    out
}

/// A copy of a message that is read: counters put in anywhere, altered and taken out; padding of any octets, the last one's
/// there or not. The copy is settled as the message is.
pub fn copy(r: &mut Random, input: &[u8]) -> Option<Vec<u8>> {
    let mut list: Vec<(u16, Vec<u8>)> = Vec::new();
    for p in read_message(input).ok()?.parameters {
        match r.below(3) {
            0 if is_hop_counter(p.tag) => {}
            1 if is_hop_counter(p.tag) => list.push((p.tag, value(r))),
            _ => list.push((p.tag, p.value)),
        }
    }
    for _ in 0..r.below(4) {
        let anywhere = r.below(list.len() + 1);
        let at = r.pick(&[0, anywhere, list.len()]);
        list.insert(at, (tags::SS7_HOP_COUNTER, value(r)));
    }
    let mut out = input[..8].to_vec();
    let mut end = out.len();
    for (tag, value) in &list {
        end = out.len() + 4 + value.len();
        out.extend(messages::parameter(r, *tag, value, true));
    }
    if r.once_in(2) {
        out.truncate(end);
    }
    (out.len() <= MOST_OCTETS).then_some(out)
}

/// What a comparison must meet of counters.
pub const KINDS: [&str; 19] = [
    "one",
    "several",
    "nothing else",
    "in front",
    "in the middle",
    "last",
    "last without its padding",
    "of no octets",
    "of a length that is no multiple of 4",
    "of 65,531 octets",
    "beside an address",
    "a part of an address",
    "a tag one bit from it",
    "room for the form alone",
    "room one octet short",
    "an address refused beside it",
    "its length refused as 5",
    "its length refused as 6",
    "refused as 12 beside it",
];

/// The kinds that a call of settle is of: its message, the form or the refusal, and the octets lent.
pub fn kinds(input: &[u8], form: &Answer<Vec<u8>>, room: usize) -> Vec<&'static str> {
    let mut found = Vec::new();
    let mut is = |kind: &'static str, so: bool| found.extend(so.then_some(kind));
    let Ok(message) = read_message(input) else {
        let refused = |number: u64| matches!(form, Err(r) if r.number == number && r.values[0] == tags::SS7_HOP_COUNTER.into());
        is("its length refused as 5", refused(5));
        is("its length refused as 6", refused(6));
        let parameters = if input.len() > MOST_OCTETS { decode_parameters(&input[8..]) } else { Ok(Vec::new()) };
        is("refused as 12 beside it", parameters.is_ok_and(|all| all.iter().any(|p| is_hop_counter(p.tag))));
        return found;
    };
    let (counters, others): (Vec<usize>, Vec<usize>) =
        (0..message.parameters.len()).partition(|i| is_hop_counter(message.parameters[*i].tag));
    let Ok(form) = form else {
        is("an address refused beside it", !counters.is_empty());
        return found;
    };
    let others_in = |value: &[u8]| other_places(value, 0).iter().any(|other| is_hop_counter(other.0));
    is("a part of an address", message.parameters.iter().any(|p| is_address(p.tag) && others_in(&p.value)));
    let near = |tag: u16| (tag ^ tags::SS7_HOP_COUNTER).count_ones() == 1 && !is_address(tag);
    is("a tag one bit from it", message.parameters.iter().any(|p| near(p.tag)));
    let (Some(first), Some(last)) = (counters.first(), counters.last()) else { return found };
    is("one", counters.len() == 1);
    is("several", counters.len() > 1 && !others.is_empty());
    is("nothing else", others.is_empty());
    if let (Some(front), Some(back)) = (others.first(), others.last()) {
        is("in front", first < front);
        is("in the middle", counters.iter().any(|i| front < i && i < back));
        is("last", last > back);
    }
    let (_, start, length) = places(&message.parameters, 8)[*last];
    is("last without its padding", start + length == input.len() && length % 4 != 0);
    let lengths: Vec<usize> = counters.iter().map(|i| message.parameters[*i].value.len()).collect();
    is("of no octets", lengths.contains(&0));
    is("of a length that is no multiple of 4", lengths.iter().any(|n| n % 4 != 0));
    is("of 65,531 octets", lengths.contains(&65_531));
    is("beside an address", others.iter().any(|i| is_address(message.parameters[*i].tag)));
    let with_counters = length_with_counters(input).expect("it has a form");
    is("room for the form alone", form.len() <= room && room < with_counters);
    is("room one octet short", room + 1 == form.len());
    found
}
