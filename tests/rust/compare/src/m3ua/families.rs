//! A day of SUA and M3UA messages in any order, each through the entries of both families: each entry gives what is expected of
//! its own family, of the other's messages too.

use super::{lists, made};
use crate::entries::{Entry, Family};
use crate::lent::{shown, Lent};
use crate::messages;
use crate::oracle::Answer;
use crate::random::{Group, Random};
use crate::screen::kinds::listed;
use std::collections::BTreeMap;

/// The messages of a day, at least.
const LEAST: u64 = 100_000;

const FAMILIES: [Family; 2] = [Family::Sua, Family::M3ua];
const TOGETHER: [&str; 6] = [
    "accepted by both, with one form",
    "accepted by both, with two forms",
    "accepted by SUA alone",
    "accepted by M3UA alone",
    "refused by both alike",
    "refused by both otherwise",
];

/// What the two families make of one message.
fn together([sua, m3ua]: &[Answer<Vec<u8>>; 2]) -> &'static str {
    match (sua, m3ua) {
        (Ok(one), Ok(other)) => TOGETHER[usize::from(one != other)],
        (Ok(_), Err(_)) => TOGETHER[2],
        (Err(_), Ok(_)) => TOGETHER[3],
        (Err(one), Err(other)) => TOGETHER[4 + usize::from(one != other)],
    }
}

fn from(family: Family) -> &'static str {
    match family {
        Family::Sua => "messages of SUA",
        Family::M3ua => "messages of M3UA",
    }
}

/// How the entry differs from what is expected of its family, with just enough room, more, or an octet less.
fn differs(r: &mut Random, family: Family, entry: Entry, octets: &[u8]) -> Option<String> {
    let expected = entry.expected(family, octets);
    let needed = expected.as_ref().map_or(64, Vec::len);
    let room = r.pick(&[needed, needed, needed + 3, needed - 1]);
    Lent::new(r, &expected, room).entry(r, |out, report| entry.call(family, octets, out, report))
}

/// A day of so many messages, 100,000 at least; true where nothing differs, and messages of each family were met that both take,
/// that one takes, and that none takes.
pub fn compare(count: u64, seed: u64) -> bool {
    let count = count.max(LEAST);
    let mut met = BTreeMap::new();
    let (mut calls, mut differences) = (0, 0);
    for i in 0..count {
        let mut r = Random::nth(Group::Families, seed, i);
        let family = r.pick(&FAMILIES);
        let (input, pair, list) = match family {
            Family::Sua => (messages::message(&mut r), messages::any_pair(&mut r), crate::archive::flat(&mut r, 20_000)),
            Family::M3ua => (made::message(&mut r), lists::any_pair(&mut r), lists::flat_list(&mut r)),
        };
        let mut turns = FAMILIES;
        if r.once_in(2) {
            turns.reverse();
        }
        for turn in turns {
            for (entry, octets) in [(Entry::Settle, &input), (Entry::Read, &input), (Entry::Encode(pair.0, pair.1), &list)] {
                calls += 1;
                if let Some(difference) = differs(&mut r, turn, entry, octets) {
                    differences += 1;
                    if differences <= 5 {
                        println!("families: message {i} of seed {seed}: {turn:?}, {entry:?}, {}, {difference}", shown(octets));
                    }
                }
            }
        }
        let forms = FAMILIES.map(|family| Entry::Settle.expected(family, &input));
        *met.entry((from(family), together(&forms).to_string())).or_default() += 1;
    }
    let groups = FAMILIES.map(|family| (from(family), TOGETHER.map(String::from).to_vec()));
    differences += listed("families", groups.to_vec(), &met, true);
    println!("families: {count} messages, {calls} calls, {differences} differences");
    differences == 0
}
