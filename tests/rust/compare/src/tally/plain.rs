//! What a message adds, read off document 02 in the plainest way with the Rust's decoder; and what kind of message it is.

use super::Prefix;
use crate::oracle::{form, read_message};
use sua::address::SuaAddress;
use sua::header::MessageType;
use sua::message::SuaMessage;
use sua::parameter::{decode_parameters, tags};

/// The values of a message's parameters with a tag.
fn values(message: &SuaMessage, tag: u16) -> Vec<&[u8]> {
    message.parameters.iter().filter(|p| p.tag == tag).map(|p| &*p.value).collect()
}

/// The digits of an address value's title.
fn digits(value: &[u8]) -> Option<String> {
    SuaAddress::decode(value).ok()?.global_title.map(|title| title.digits)
}

/// The members whose prefix the digits begin with.
fn fitting(prefixes: &[Prefix], digits: &str) -> Vec<usize> {
    (0..prefixes.len()).filter(|i| digits.as_bytes().starts_with(&prefixes[*i])).collect()
}

/// The row of a destination address; the unplaced row where there is no title, or no prefix fits.
fn row(prefixes: &[Prefix], value: &[u8]) -> usize {
    let members = digits(value).map_or(Vec::new(), |digits| fitting(prefixes, &digits));
    members.into_iter().max_by_key(|i| prefixes[*i].len()).unwrap_or(prefixes.len())
}

/// The row that a message goes to, and the octets that it adds.
pub fn placed(prefixes: &[Prefix], input: &[u8]) -> (usize, u64) {
    if form(input).is_err() {
        return (prefixes.len() + 1, 0);
    }
    let message = read_message(input).expect("it has a form");
    let octets = values(&message, tags::DATA).first().map_or(0, |data| data.len() as u64);
    match values(&message, tags::DESTINATION_ADDRESS).first() {
        Some(value) if message.message_type == MessageType::Cldt => (row(prefixes, value), octets),
        _ => (prefixes.len(), octets),
    }
}

/// The kinds of message that every comparison must meet.
pub const KINDS: [&str; 32] = [
    "a member's row",
    "the unplaced row",
    "the refused row",
    "one prefix fits",
    "the longest stands before a shorter",
    "the longest stands behind a shorter",
    "the title is the prefix",
    "the title ends inside a prefix",
    "no prefix fits",
    "a title without its include bit",
    "an include bit without a title",
    "two titles for two rows",
    "no destination",
    "two destinations for two rows",
    "a title behind a destination without",
    "another type with a title for a member",
    "no data",
    "no octets of data in front of some",
    "data of two lengths",
    "data of 65,531 octets",
    "refused as 1",
    "refused as 2",
    "refused as 4",
    "refused as 5",
    "refused as 6",
    "refused as 8",
    "refused as 9",
    "refused as 10",
    "refused as 12",
    "refused with data for a member",
    "unplaced with data",
    "refused by another destination",
];

/// The kinds that a message is of.
pub fn kinds(prefixes: &[Prefix], input: &[u8]) -> Vec<&'static str> {
    let unplaced = prefixes.len();
    let (gained, octets) = placed(prefixes, input);
    let mut found = vec![match gained {
        row if row < unplaced => "a member's row",
        row if row == unplaced => "the unplaced row",
        _ => "the refused row",
    }];
    let refusal = form(input).err().map(|refused| format!("refused as {}", refused.number));
    found.extend(KINDS.into_iter().find(|kind| refusal.as_deref() == Some(kind)));
    let Ok(message) = read_message(input) else { return found };
    let cldt = message.message_type == MessageType::Cldt;
    let (data, to) = (values(&message, tags::DATA), values(&message, tags::DESTINATION_ADDRESS));
    let rows: Vec<usize> = to.iter().map(|value| row(prefixes, value)).collect();
    let first_row = rows.first().copied().unwrap_or(unplaced);
    let mut is = |kind: &'static str, so: bool| found.extend(so.then_some(kind));
    if refusal.is_some() {
        let would_gain = cldt && first_row < unplaced;
        is("refused with data for a member", would_gain && data.first().is_some_and(|d| !d.is_empty()));
        is("refused by another destination", would_gain && to.iter().skip(1).any(|value| SuaAddress::decode(value).is_err()));
        return found;
    }
    is("no data", data.is_empty());
    is("no octets of data in front of some", data.len() > 1 && data[0].is_empty() && !data[1].is_empty());
    is("data of two lengths", data.len() > 1 && data.iter().any(|d| d.len() != data[0].len()));
    is("data of 65,531 octets", octets == 65_531);
    is("unplaced with data", gained == unplaced && octets > 0);
    is("another type with a title for a member", !cldt && first_row < unplaced);
    if !cldt {
        return found;
    }
    is("no destination", to.is_empty());
    is("two destinations for two rows", rows.iter().any(|row| *row != first_row));
    let Some(first) = to.first() else { return found };
    let address = SuaAddress::decode(first).expect("it has a form");
    let Some(title) = address.global_title else {
        is("an include bit without a title", address.include_gt);
        is("a title behind a destination without", rows.iter().any(|row| *row < unplaced));
        return found;
    };
    let members = fitting(prefixes, &title.digits);
    is("no prefix fits", members.is_empty());
    is("one prefix fits", members.len() == 1);
    is("the longest stands before a shorter", members.iter().any(|i| *i > first_row));
    is("the longest stands behind a shorter", members.iter().any(|i| *i < first_row));
    is("the title is the prefix", prefixes.iter().any(|p| *p == title.digits.as_bytes()));
    is(
        "the title ends inside a prefix",
        !title.digits.is_empty() && members.is_empty() && prefixes.iter().any(|p| p.starts_with(title.digits.as_bytes())),
    );
    is("a title without its include bit", gained < unplaced && !address.include_gt);
    let parts = decode_parameters(&first[4..]).expect("it has a form");
    let titles = parts.into_iter().filter(|p| p.tag == tags::GLOBAL_TITLE);
    let alone = |p: sua::parameter::Parameter| row(prefixes, &[&[0, 1, 0, 0][..], &p.encode()].concat());
    is("two titles for two rows", titles.map(alone).any(|row| row != first_row));
    found
}
