//! The kinds of address values and party addresses that every comparison must meet.

use super::plain::{broken, party, read};
use crate::oracle::{read_address, Refused, MOST_OCTETS};
use sua::address::{RoutingIndicator, SuaAddress};
use sua::parameter::{decode_parameters, tags, Parameter};

/// A group of kinds, and a kind in it.
pub type Kind = (&'static str, String);

const TO: &str = "to, converted";
const FROM: &str = "from, converted";
const DIRTY: &str = "to, converted, means nothing";
const ALONE_17: &str = "17, by one condition";
const ALONE_18: &str = "18, by one condition";
const READING: &str = "to, refused in reading";
pub const ANSWERS: &str = "answers";

const CONVERTED: [&str; 18] = [
    "on title",
    "on SSN and point code",
    "on title without one",
    "on SSN without one",
    "no parts",
    "all parts",
    "point code 16,383",
    "point code below 256",
    "SSN 0",
    "plan 15",
    "nature 127",
    "no digits",
    "odd digits",
    "even digits",
    "254 digits",
    "255 digits",
    "a digit above 9",
    "135 octets",
];

const NOTHING: [&str; 10] = [
    "reserved bits",
    "reserved octets",
    "another order",
    "a part twice",
    "a count above the digits",
    "octets behind the digits",
    "a filler",
    "a longer point code or SSN",
    "padding, or octets behind",
    "1,048,576 octets",
];

/// Every group, with its kinds.
pub fn groups() -> Vec<(&'static str, Vec<String>)> {
    let named = |kinds: &[&str]| kinds.iter().map(|kind| kind.to_string()).collect::<Vec<_>>();
    let numbered = |kind: &str, numbers: &[u8]| numbers.iter().map(|n| format!("{kind} {n}")).collect::<Vec<_>>();
    let mut unconvertible = numbered("routing indicator", &[0, 3, 4]);
    for part in ["title", "point code", "SSN"] {
        unconvertible.extend([format!("{part}: bit alone"), format!("{part}: no bit")]);
    }
    unconvertible.extend(numbered("title indicator", &[0, 1, 2, 3]));
    unconvertible.extend(named(&["title indicator above 4", "another sub-parameter", "digit ?"]));
    for (what, first) in [("numbering plan", 16), ("nature", 128), ("point code", 16_384)] {
        unconvertible.extend([format!("{what} {first}"), format!("{what} above {first}")]);
    }
    let others: Vec<u8> = (1..16).filter(|n| *n != 4).collect();
    let schemes: Vec<u8> = [0].into_iter().chain(3..16).collect();
    let fillers: Vec<u8> = (1..16).collect();
    let mut invalid = named(&["no octets", "ends in front of the SSN", "octets left over"]);
    invalid.extend(numbered("ends in the point code, at octet", &[0, 1]));
    invalid.extend(numbered("ends in the title, at octet", &[0, 1, 2]));
    invalid.extend(named(&["reserved bit of the first octet", "reserved bit of the nature"]));
    invalid.extend(["01", "10", "11"].map(|bits| format!("reserved bits {bits} of the point code")));
    invalid.extend(numbered("title indicator", &others));
    invalid.extend(numbered("scheme", &schemes));
    invalid.extend(numbered("filler", &fillers));
    invalid.extend(named(&["BCD odd without digits", "half octet 15", "digits: 256", "digits: above 256"]));
    vec![
        (ANSWERS, ["to", "from"].iter().flat_map(|way| answers(way)).collect()),
        (TO, named(&CONVERTED)),
        (DIRTY, named(&NOTHING)),
        (FROM, named(&CONVERTED)),
        (READING, named(&["1", "5", "6", "8", "12", "with a routing indicator 0, 3 or 4"])),
        (ALONE_17, unconvertible),
        (ALONE_18, invalid),
    ]
}

/// What a call of either way can answer, by number and room.
fn answers(way: &str) -> Vec<String> {
    let refused = if way == "to" { "17" } else { "18" };
    let all = ["just enough room", "more room", "14 an octet short", "14 without room", refused, "12"];
    all.iter().map(|answer| format!("{way} {answer}")).collect()
}

/// What an address that converts shows.
fn converted(group: &'static str, a: &SuaAddress) -> Vec<Kind> {
    let on_title = a.routing_indicator == RoutingIndicator::RouteOnGlobalTitle;
    let (title, code, ssn) = (a.global_title.as_ref(), a.point_code, a.ssn);
    let count = title.map(|t| t.digits.len());
    let met = [
        on_title,
        !on_title,
        on_title && title.is_none(),
        !on_title && ssn.is_none(),
        title.is_none() && code.is_none() && ssn.is_none(),
        title.is_some() && code.is_some() && ssn.is_some(),
        code == Some(16_383),
        code.is_some_and(|code| code < 256),
        ssn == Some(0),
        title.is_some_and(|t| t.numbering_plan == 15),
        title.is_some_and(|t| t.nature_of_address == 127),
        count == Some(0),
        count.is_some_and(|n| n % 2 == 1),
        count.is_some_and(|n| n % 2 == 0),
        count == Some(254),
        count == Some(255),
        title.is_some_and(|t| t.digits.contains(|c: char| !c.is_ascii_digit())),
        party(a).len() == 135,
    ];
    CONVERTED.iter().zip(met).filter(|(_, met)| *met).map(|(kind, _)| (group, kind.to_string())).collect()
}

/// What of a value that converts means nothing.
fn nothing(value: &[u8]) -> Vec<Kind> {
    let parts = decode_parameters(&value[4..]).expect("it was read");
    let with = |tag: u16| parts.iter().filter(move |p| p.tag == tag);
    let title = with(tags::GLOBAL_TITLE).next_back().map(|p| &*p.value);
    let (count, octets) = title.map_or((0, &[][..]), |t| (usize::from(t[4]), &t[8..]));
    let written: Vec<u8> = parts.iter().flat_map(Parameter::encode).collect();
    let met = [
        value[2] != 0 || value[3] & 0xF8 != 0,
        with(tags::SUBSYSTEM_NUMBER).chain(with(tags::GLOBAL_TITLE)).any(|p| p.value[..3] != [0; 3]),
        parts.windows(2).any(|two| two[0].tag > two[1].tag),
        [tags::GLOBAL_TITLE, tags::POINT_CODE, tags::SUBSYSTEM_NUMBER].iter().any(|tag| with(*tag).count() > 1),
        count > 2 * octets.len(),
        count.div_ceil(2) < octets.len(),
        count % 2 == 1 && octets.get(count / 2).is_some_and(|octet| octet >> 4 != 0),
        with(tags::POINT_CODE).chain(with(tags::SUBSYSTEM_NUMBER)).any(|p| p.value.len() > 4),
        value[4..] != written,
        value.len() == MOST_OCTETS,
    ];
    NOTHING.iter().zip(met).filter(|(_, met)| *met).map(|(kind, _)| (DIRTY, kind.to_string())).collect()
}

/// The condition that is broken, where it is one.
fn alone(group: &'static str, broken: Vec<String>) -> Vec<Kind> {
    match <[String; 1]>::try_from(broken) {
        Ok([condition]) => vec![(group, condition)],
        Err(_) => vec![],
    }
}

/// The kinds that an address value is of.
pub fn of_value(value: &[u8]) -> Vec<Kind> {
    match read_address(value) {
        Err(Refused { number, .. }) => {
            let other_route = value.len() > 3 && value[0] == 0 && matches!(value[1], 0 | 3 | 4);
            let kinds = [Some(number.to_string()), other_route.then(|| "with a routing indicator 0, 3 or 4".into())];
            kinds.into_iter().flatten().map(|kind| (READING, kind)).collect()
        }
        Ok(a) if broken(&a).is_empty() => [converted(TO, &a), nothing(value)].concat(),
        Ok(a) => alone(ALONE_17, broken(&a)),
    }
}

/// The kinds that octets are of, as a party address.
pub fn of_party(octets: &[u8]) -> Vec<Kind> {
    if octets.len() > MOST_OCTETS {
        return vec![];
    }
    match read(octets) {
        Ok(a) => converted(FROM, &a),
        Err(broken) => alone(ALONE_18, broken),
    }
}
