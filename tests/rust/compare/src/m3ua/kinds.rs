//! The kinds of M3UA messages and lists that a comparison must meet, read off their octets by the plain reading.

use super::plain::{header, known, walk, written, Parameter, DATA, LABEL, PAIRS, PROTOCOL_DATA};
use crate::oracle::{flat_list, Answer, MOST_OCTETS, MOST_VALUE};
use std::collections::BTreeMap;

/// A kind: its group, its text, and where it is one of several, its number.
pub type Kind = (&'static str, &'static str, Option<usize>);

/// All kinds in their order, and whether something is of each.
#[derive(Default)]
pub struct Kinds {
    group: &'static str,
    all: Vec<(Kind, bool)>,
}

impl Kinds {
    fn group(&mut self, group: &'static str) {
        self.group = group;
    }

    fn is(&mut self, text: &'static str, holds: bool) {
        self.all.push(((self.group, text, None), holds));
    }

    /// One kind for each of these numbers.
    fn number(&mut self, text: &'static str, numbers: impl IntoIterator<Item = usize>, is: impl Fn(usize) -> bool) {
        self.all.extend(numbers.into_iter().map(|n| ((self.group, text, Some(n)), is(n))));
    }

    /// Counts those that hold.
    pub fn count(self, met: &mut BTreeMap<Kind, u64>) {
        for (kind, _) in self.all.into_iter().filter(|(_, holds)| *holds) {
            *met.entry(kind).or_default() += 1;
        }
    }
}

/// Every group with its kinds, as text.
pub fn groups() -> Vec<(&'static str, Vec<String>)> {
    let mut groups: Vec<(&'static str, Vec<String>)> = Vec::new();
    for ((group, text, number), _) in [of_message(&[]).all, of_list(0, 0, &[]).all].concat() {
        match groups.last_mut() {
            Some((last, kinds)) if *last == group => kinds.push(named(text, number)),
            _ => groups.push((group, vec![named(text, number)])),
        }
    }
    groups
}

fn named(text: &str, number: Option<usize>) -> String {
    number.map_or(text.into(), |n| format!("{text} {n}"))
}

/// How often each kind was met, by group and text.
pub fn met(met: &BTreeMap<Kind, u64>) -> BTreeMap<(&'static str, String), u64> {
    met.iter().map(|((group, text, number), n)| ((*group, named(text, *number)), *n)).collect()
}

/// A class and a type.
type Pair = (u8, u8);

const CLASSES: [(u8, &str); 6] = [
    (0, "class 0, type"),
    (1, "class 1, type"),
    (2, "class 2, type"),
    (3, "class 3, type"),
    (4, "class 4, type"),
    (9, "class 9, type"),
];

/// The types of a class.
fn types(class: u8) -> Vec<usize> {
    PAIRS.iter().filter(|pair| pair.0 == class).map(|pair| pair.1.into()).collect()
}

/// The pairs that are known.
fn known_pairs(kinds: &mut Kinds, pair: Option<Pair>) {
    for (class, text) in CLASSES {
        kinds.number(text, types(class), |n| pair == Some((class, n as u8)));
    }
}

/// The pairs that are not: SUA's, those beside the types of a class, and other classes.
fn unknown_pairs(kinds: &mut Kinds, pair: Option<Pair>) {
    kinds.number("class 7, type", 1..=2, |n| pair == Some((7, n as u8)));
    kinds.number("class 8, type", 1..=11, |n| pair == Some((8, n as u8)));
    for (class, text) in CLASSES {
        let types = types(class);
        let below = types[0].checked_sub(1);
        kinds.number(text, below.into_iter().chain([types[types.len() - 1] + 1]), |n| pair == Some((class, n as u8)));
    }
    kinds.number("class", [5, 6, 10, 255], |n| pair.is_some_and(|(class, _)| usize::from(class) == n));
}

/// How many octets of padding a value has.
fn padding(value: &[u8]) -> usize {
    (4 - value.len() % 4) % 4
}

/// Where a parameter's value ends.
fn end(p: &Parameter<'_>) -> usize {
    p.start + p.value.len()
}

/// The four octets at a place, as a number.
fn four(octets: &[u8], at: usize) -> Option<usize> {
    let four = octets.get(at..at + 4)?;
    Some(four.iter().fold(0, |n, octet| 256 * n + usize::from(*octet)))
}

/// What is found in octets that are a message or not: what follows is found also behind what is refused.
struct Found<'a> {
    octets: &'a [u8],
    head: Answer<()>,
    pair: Option<Pair>,
    parameters: Vec<Parameter<'a>>,
    walked: Answer<()>,
}

/// The kinds that octets are of, a message or none.
pub fn of_message(octets: &[u8]) -> Kinds {
    let (parameters, walked) = walk(octets.get(8..).unwrap_or(&[]), 8);
    let pair = octets.get(2..4).map(|two| (two[0], two[1]));
    let found = Found { octets, head: header(octets).map(|_| ()), pair, parameters, walked };
    let mut kinds = Kinds::default();
    found.header(&mut kinds);
    found.walk(&mut kinds);
    found.short(&mut kinds);
    found.accepted(&mut kinds);
    found.protocol_data(&mut kinds);
    found.nothing(&mut kinds);
    kinds
}

impl Found<'_> {
    /// The values of the refusal, where the header is refused by this number.
    fn head_refused(&self, number: u64) -> Option<&[u64]> {
        self.head.as_ref().err().filter(|r| r.number == number).map(|r| &*r.values)
    }

    /// The values of the refusal, where the walk is refused by this number, and the header is not.
    fn walk_refused(&self, number: u64) -> Option<&[u64]> {
        self.walked.as_ref().err().filter(|r| self.head.is_ok() && r.number == number).map(|r| &*r.values)
    }

    fn has_short(&self) -> bool {
        self.parameters.iter().any(Parameter::is_short)
    }

    fn is_accepted(&self) -> bool {
        self.head.is_ok() && self.walked.is_ok() && !self.has_short()
    }

    /// The parameters of a message that is accepted; else none.
    fn kept(&self) -> &[Parameter<'_>] {
        if self.is_accepted() {
            &self.parameters
        } else {
            &[]
        }
    }

    fn header(&self, kinds: &mut Kinds) {
        let n = self.octets.len();
        let version = self.octets.first().is_some_and(|version| *version != 1);
        let unknown = self.pair.is_some_and(|(class, msg_type)| known(class, msg_type).is_err());
        let (length, short) = (self.walked.is_err(), self.has_short());

        kinds.group("refused as 12");
        let is = |holds: bool| self.head_refused(12).is_some() && holds;
        kinds.is("1,048,577 octets", is(n == MOST_OCTETS + 1));
        kinds.is("more octets", is(n > MOST_OCTETS + 1));
        kinds.is("nothing else wrong", is(!version && !unknown && !length && !short));
        kinds.is("another version", is(version));
        kinds.is("an unknown pair", is(unknown));
        kinds.is("a parameter's length", is(length));
        kinds.is("a short Protocol Data", is(short));

        kinds.group("refused as 1");
        let is = |holds: bool| self.head_refused(1).is_some() && holds;
        kinds.number("octets", 0..=7, |octets| is(octets == n));
        kinds.is("another version", is(version));

        kinds.group("refused as 2");
        let is = |holds: bool| self.head_refused(2).is_some() && holds;
        kinds.number("version", [0, 2, 255], |version| self.head_refused(2) == Some(&[version as u64]));
        kinds.is("an unknown pair", is(unknown));
        kinds.is("a parameter's length", is(length));
        kinds.is("a header alone", is(n == 8));

        kinds.group("refused as 4");
        let is = |holds: bool| self.head_refused(4).is_some() && holds;
        unknown_pairs(kinds, self.pair.filter(|_| is(true)));
        kinds.is("a parameter's length", is(length));
        kinds.is("a short Protocol Data", is(!length && short));
    }

    fn walk(&self, kinds: &mut Kinds) {
        let first = self.parameters.is_empty();
        let protocol_data = |values: &[u64]| values[0] == u64::from(PROTOCOL_DATA);

        kinds.group("refused as 5");
        let values = self.walk_refused(5);
        let is = |holds: bool| values.is_some() && holds;
        kinds.number("length", 0..=3, |n| values.is_some_and(|values| values[1] == n as u64));
        kinds.is("the first parameter", is(first));
        kinds.is("a later parameter", is(!first));
        kinds.is("a Protocol Data", values.is_some_and(protocol_data));
        kinds.is("behind a short Protocol Data", is(self.has_short()));

        kinds.group("refused as 6 in the walk");
        let values = self.walk_refused(6);
        let is = |holds: bool| values.is_some() && holds;
        let short_by = values.map(|values| (values[1] - values[2]) as usize);
        kinds.number("short by", 1..=3, |n| short_by == Some(n));
        kinds.is("short by more", short_by.is_some_and(|n| n > 3));
        kinds.is("length 65,535", values.is_some_and(|values| values[1] == 65_535));
        kinds.is("no octet behind its length", values.is_some_and(|values| values[2] == 4));
        kinds.is("the first parameter", is(first));
        kinds.is("a later parameter", is(!first));
        kinds.is("a Protocol Data", values.is_some_and(protocol_data));
        let tells_short = |values: &[u64]| protocol_data(values) && values[1] < 4 + LABEL as u64;
        kinds.is("a Protocol Data that tells under 12 octets", values.is_some_and(tells_short));
        kinds.is("behind a short Protocol Data", is(self.has_short()));
    }

    /// A message that is refused for a Protocol Data of under 12 octets.
    fn short(&self, kinds: &mut Kinds) {
        let walked = self.head.is_ok() && self.walked.is_ok();
        let parameters: &[Parameter<'_>] = if walked { &self.parameters } else { &[] };
        let all: Vec<&Parameter<'_>> = parameters.iter().filter(|p| p.tag == PROTOCOL_DATA).collect();
        let short: Vec<usize> = (0..all.len()).filter(|i| all[*i].is_short()).collect();
        let lengths: Vec<usize> = short.iter().map(|i| all[*i].value.len()).collect();
        let alone = |holds: fn(usize, usize) -> bool| short.len() == 1 && all.len() > 1 && holds(short[0], all.len() - 1);

        kinds.group("refused as 6, a short Protocol Data");
        kinds.number("octets", 0..LABEL, |n| lengths.first() == Some(&n));
        kinds.is("the only one", short.len() == 1 && all.len() == 1);
        kinds.is("the only parameter", short.len() == 1 && parameters.len() == 1);
        kinds.is("the first of several, alone", alone(|i, _| i == 0));
        kinds.is("a middle one, alone", alone(|i, last| 0 < i && i < last));
        kinds.is("the last of several, alone", alone(|i, last| i == last));
        kinds.is("several, a later one shorter", lengths.iter().any(|n| *n < lengths[0]));
        kinds.is("several, a later one longer", lengths.iter().any(|n| *n > lengths[0]));
        kinds.is("in DATA", !short.is_empty() && self.pair == Some(DATA));
        kinds.is("in another message", !short.is_empty() && self.pair != Some(DATA));
        let last = parameters.last().filter(|p| p.is_short()).map(|p| (end(p), end(p) + padding(p.value)));
        kinds.is("the last parameter, without all of its padding", last.is_some_and(|(_, padded)| self.octets.len() < padded));
        kinds.is("the last parameter, with trailing octets", last.is_some_and(|(_, padded)| self.octets.len() > padded));
    }

    fn accepted(&self, kinds: &mut Kinds) {
        let parameters = self.kept();
        let any = |is: &dyn Fn(&Parameter<'_>) -> bool| parameters.iter().any(is);
        let address = |p: &Parameter<'_>| matches!(p.tag, 0x0102 | 0x0103);

        kinds.group("accepted, pairs");
        known_pairs(kinds, self.pair.filter(|_| self.is_accepted()));

        kinds.group("accepted, parameters");
        kinds.is("none, a header alone", self.is_accepted() && self.octets.len() == 8);
        kinds.is("one", parameters.len() == 1);
        kinds.is("six or more", parameters.len() >= 6);
        kinds.is("262,142", parameters.len() == 262_142);
        kinds.is("the same twice", parameters.windows(2).any(|two| (two[0].tag, two[0].value) == (two[1].tag, two[1].value)));
        for (tag, text) in [(0, "tag 0x0000"), (0x0101, "tag 0x0101"), (0x0102, "tag 0x0102"), (0x0103, "tag 0x0103")] {
            kinds.is(text, any(&|p| p.tag == tag));
        }
        kinds.is("0x0102 or 0x0103 under 4 octets", any(&|p| address(p) && p.value.len() < 4));
        let indicator = |p: &Parameter<'_>| p.value.len() >= 4 && p.value[..2] > [0, 4][..];
        kinds.is("0x0102 or 0x0103 with a routing indicator above 4", any(&|p| address(p) && indicator(p)));
        let near = |p: &Parameter<'_>| (p.tag ^ PROTOCOL_DATA).count_ones() == 1 && p.value.len() < LABEL;
        kinds.is("a tag one bit from 0x0210 with under 12 octets", any(&near));
        kinds.number("octets", [0, 1, 2, 3, 4, MOST_VALUE], |n| any(&|p| p.value.len() == n));
    }

    fn protocol_data(&self, kinds: &mut Kinds) {
        let all: Vec<&Parameter<'_>> = self.kept().iter().filter(|p| p.tag == PROTOCOL_DATA).collect();
        let first = self.kept().first();

        kinds.group("accepted, Protocol Data");
        kinds.number("octets", [12, 13, 14, 15, 16, 17, MOST_VALUE], |n| all.iter().any(|p| p.value.len() == n));
        kinds.is("over 255 octets", all.iter().any(|p| p.value.len() > 255));
        kinds.is("one", all.len() == 1);
        kinds.is("several", all.len() > 1);
        kinds.is("in another message than DATA", !all.is_empty() && self.pair != Some(DATA));
        kinds.is("none in DATA", self.is_accepted() && all.is_empty() && self.pair == Some(DATA));
        kinds.is("behind another parameter", !all.is_empty() && first.is_some_and(|p| p.tag != PROTOCOL_DATA));
        kinds.is("another one in front", all.len() > 1 && first.is_some_and(|p| p.tag == PROTOCOL_DATA));
        kinds.is("priority and selection differ", all.iter().any(|p| p.value[10] != p.value[11]));
    }

    /// What means nothing in a message that is accepted.
    fn nothing(&self, kinds: &mut Kinds) {
        let is = |holds: bool| self.is_accepted() && holds;
        let last = self.kept().last();
        let (there, padded) = (self.octets.len(), last.map_or(8, |p| end(p) + padding(p.value)));
        let declared = four(self.octets, 4).unwrap_or(0);
        let dirty = |p: &Parameter<'_>| self.octets[end(p)..].iter().take(padding(p.value)).any(|octet| *octet != 0);

        kinds.group("accepted, means nothing");
        kinds.is("nothing of it: its own form", is(self.is_own_form()));
        kinds.is("a reserved octet", is(self.octets.get(1) != Some(&0)));
        kinds.is("a declared length of 0", is(declared == 0));
        kinds.is("a declared length that is smaller", is(0 < declared && declared < there));
        kinds.is("a declared length that is larger", is(declared > there));
        kinds.is("padding", self.kept().iter().any(dirty));
        kinds.number("last padding short by", 1..=3, |n| is(there + n == padded));
        kinds.is("some of the last padding", is(there < padded && last.is_some_and(|p| end(p) < there)));
        kinds.number("trailing octets", 1..=3, |n| is(there == padded + n));
        kinds.is("trailing octets and no parameter", is(last.is_none() && there > padded));
        kinds.is("1,048,576 octets", is(there == MOST_OCTETS));
    }

    fn is_own_form(&self) -> bool {
        let list: Vec<(u16, &[u8])> = self.kept().iter().map(|p| (p.tag, p.value)).collect();
        self.pair.is_some_and(|(class, msg_type)| written(class, msg_type, &list) == self.octets)
    }
}

/// The kinds that a class, a type and a flat list are of.
pub fn of_list(class: u8, msg_type: u8, list: &[u8]) -> Kinds {
    let mut kinds = Kinds::default();
    let pair = (class, msg_type);
    let known = known(class, msg_type).is_ok();
    let read = flat_list(list);
    let parameters = read.as_deref().unwrap_or(&[]);
    let too_long: Vec<usize> = parameters.iter().map(|(_, value)| value.len()).filter(|n| *n > MOST_VALUE).collect();
    let octets = 8 + parameters.iter().map(|(_, value)| (4 + value.len()).next_multiple_of(4)).sum::<usize>();

    kinds.group("encode, refused as 4");
    unknown_pairs(&mut kinds, Some(pair).filter(|_| !known));
    kinds.is("a list that is not finished", !known && read.is_err());
    kinds.is("a value too long", !known && !too_long.is_empty());
    kinds.is("a message too long", !known && octets > MOST_OCTETS);

    unfinished(&mut kinds, known && read.is_err(), list);

    kinds.group("encode, refused as 10");
    let is = |holds: bool| known && !too_long.is_empty() && holds;
    kinds.number("octets", [MOST_VALUE + 1], |n| is(too_long.first() == Some(&n)));
    kinds.is("more octets", is(too_long.first() > Some(&(MOST_VALUE + 1))));
    kinds.is("two, of other lengths", is(too_long.iter().any(|n| *n != too_long[0])));
    kinds.is("behind another", is(parameters.first().is_some_and(|(_, value)| value.len() <= MOST_VALUE)));
    kinds.is("a message too long", is(octets > MOST_OCTETS));

    kinds.group("encode, refused as 12");
    let is = |holds: bool| known && too_long.is_empty() && holds;
    kinds.is("1,048,580 octets", is(octets == MOST_OCTETS + 4));
    kinds.is("more octets", is(octets > MOST_OCTETS + 4));

    kinds.group("encode, accepted");
    let is = |holds: bool| known && read.is_ok() && too_long.is_empty() && octets <= MOST_OCTETS && holds;
    let any = |holds: &dyn Fn(u16, usize) -> bool| is(parameters.iter().any(|(tag, value)| holds(*tag, value.len())));
    known_pairs(&mut kinds, Some(pair).filter(|_| is(true)));
    kinds.is("no parameters", is(list.is_empty()));
    kinds.is("1,048,576 octets", is(octets == MOST_OCTETS));
    kinds.is("a list above 1,048,576 octets", is(list.len() > MOST_OCTETS));
    kinds.is("a value of 65,531 octets", any(&|_, n| n == MOST_VALUE));
    kinds.is("a short Protocol Data", any(&|tag, n| tag == PROTOCOL_DATA && n < LABEL));
    kinds.is("tag 0x0101", any(&|tag, _| tag == 0x0101));
    kinds.number("octets of padding", 0..=3, |padding| any(&|_, n| (n + padding) % 4 == 0));
    kinds
}

/// A list whose last record is not finished.
fn unfinished(kinds: &mut Kinds, refused: bool, list: &[u8]) {
    let ends = ends(list);
    let start = ends.last().copied().unwrap_or(0);
    let (left, told) = (list.len() - start, four(list, start + 2));
    let missing = told.map_or(0, |told| (told + 6).saturating_sub(left));
    let is = |holds: bool| refused && holds;

    kinds.group("encode, refused as 15");
    kinds.number("octets left", 1..=5, |n| is(left == n));
    kinds.is("no octet behind its length", is(left == 6));
    kinds.is("a value short by one octet", is(missing == 1));
    kinds.is("a value short by more", is(missing > 1));
    kinds.is("a length of 4,294,967,295", is(told == Some(u32::MAX as usize)));
    kinds.is("the first record", is(ends.is_empty()));
    kinds.is("a later record", is(!ends.is_empty()));
    let too_long = |record: &[usize]| record[1] - record[0] > 6 + MOST_VALUE;
    kinds.is("a value too long in front", is([&[0], &*ends].concat().windows(2).any(too_long)));
}

/// Where the finished records of a list end.
fn ends(list: &[u8]) -> Vec<usize> {
    let mut ends = Vec::new();
    let mut at = 0;
    while let Some(length) = four(list, at + 2) {
        at += 6 + length;
        if at > list.len() {
            break;
        }
        ends.push(at);
    }
    ends
}
