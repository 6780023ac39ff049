//! settle, read and encode through the archive, beside the Rust: answers, reports, octets, and what is left alone.

use crate::counters;
use crate::entries::{Entry, Family};
use crate::lent::{shown, Lent};
use crate::messages;
use crate::oracle::{account, form, Answer};
use crate::random::{Group, Random};
use std::collections::BTreeMap;

/// The refusals that an entry can give.
fn refusals(entry: Entry) -> &'static [u64] {
    match entry {
        Entry::Settle => &[1, 2, 4, 5, 6, 8, 9, 10, 12, 14],
        Entry::Read => &[1, 2, 4, 5, 6, 8, 12, 14],
        Entry::Encode(..) => &[4, 10, 12, 14, 15],
    }
}

/// How often each answer came, 0 for acceptance, else the refusal's number; and each kind of hop counters, settled.
#[derive(Default)]
struct Seen {
    answers: BTreeMap<&'static str, BTreeMap<u64, u64>>,
    counters: BTreeMap<&'static str, u64>,
}

/// An output's length: just enough, one less, none, or some.
fn room(r: &mut Random, needed: usize) -> usize {
    match r.below(8) {
        0 => needed.saturating_sub(1),
        1 => 0,
        2 => needed + r.below(40),
        3 => r.below(needed + 20),
        _ => needed,
    }
}

/// Calls the entry, which must answer so; None where it does.
fn differs(r: &mut Random, entry: Entry, input: &[u8], expected: Answer<Vec<u8>>, seen: &mut Seen) -> Option<String> {
    let room = room(r, expected.as_ref().map_or(64, Vec::len));
    if matches!(entry, Entry::Settle) {
        for kind in counters::kinds(input, &expected, room) {
            *seen.counters.entry(kind).or_default() += 1;
        }
    }
    let lent = Lent::new(r, &expected, room);
    *seen.answers.entry(entry.name()).or_default().entry(lent.report()[0]).or_default() += 1;
    let difference = lent.entry(r, |out, report| entry.call(Family::Sua, input, out, report))?;
    Some(format!("{entry:?}, {} octets {}, {difference}", input.len(), shown(input)))
}

/// A flat list for `encode`, finished or not; once in so many times with a value that is too long, or too long as a whole.
pub fn flat(r: &mut Random, large_once_in: usize) -> Vec<u8> {
    let mut out = Vec::new();
    let mut push = |tag: u16, value: &[u8]| messages::push_flat(&mut out, tag, value);
    if r.once_in(large_once_in) {
        let n = 65_530 + r.below(4);
        push(messages::tag(r), &vec![0x55; n]);
    }
    if r.once_in(3 * large_once_in) {
        for _ in 0..16 {
            push(9, &[0x66; 65_524]);
        }
        let n = r.below(300);
        push(9, &vec![0x77; n]);
    }
    for (tag, value) in messages::list(r, true, true) {
        push(tag, &value);
    }
    match r.below(8) {
        0 => out.truncate(r.below(out.len() + 1)),
        1 if out.len() > 5 => out[5] = r.octet(),
        _ => {}
    }
    out
}

/// Compares so many random messages and lists, and copies of the messages that differ in hop counters alone; true where none
/// differs.
pub fn compare(count: u64, seed: u64) -> bool {
    let mut seen = Seen::default();
    let (mut made, mut differences) = (0, 0);
    for i in 0..count {
        let mut r = Random::nth(Group::Archive, seed, i);
        let input = if r.once_in(10_000) { counters::large(&mut r) } else { messages::message(&mut r) };
        let (class, msg_type) = messages::any_pair(&mut r);
        let list = flat(&mut r, 2_000);
        let encode = Entry::Encode(class, msg_type);
        let mut calls: Vec<(Entry, &[u8], Answer<Vec<u8>>)> = [(Entry::Settle, &input), (Entry::Read, &input), (encode, &list)]
            .map(|(e, i)| (e, &**i, e.expected(Family::Sua, i)))
            .into();
        let copy = counters::copy(&mut r, &input);
        if let Some(copy) = &copy {
            // Its form, or its refusal, is the message's.
            calls.push((Entry::Settle, copy, form(&input)));
            calls.push((Entry::Read, copy, account(copy)));
        }
        made += calls.len();
        for (entry, octets, expected) in calls {
            if let Some(difference) = differs(&mut r, entry, octets, expected, &mut seen) {
                differences += 1;
                if differences <= 5 {
                    println!("message {i} of seed {seed}: {difference}");
                }
            }
        }
    }
    let mut unseen = Vec::new();
    for entry in [Entry::Settle, Entry::Read, Entry::Encode(0, 0)] {
        let name = entry.name();
        let counts = seen.answers.remove(name).unwrap_or_default();
        let listed: Vec<String> = counts.iter().filter(|(n, _)| **n > 0).map(|(n, c)| format!("{n}: {c}")).collect();
        println!("archive, {name}: {} accepted; refused {}", counts.get(&0).unwrap_or(&0), listed.join(", "));
        unseen.extend(refusals(entry).iter().filter(|n| !counts.contains_key(n)).map(|n| format!("{name} {n}")));
    }
    if count >= 1_000_000 && !unseen.is_empty() {
        println!("archive: never refused as {}", unseen.join(", "));
        differences += 1;
    }
    let times = |kind: &&str| seen.counters.get(kind).copied().unwrap_or(0);
    let listed: Vec<String> = counters::KINDS.iter().map(|kind| format!("{kind}: {}", times(kind))).collect();
    println!("archive, hop counters: {}", listed.join(", "));
    for kind in counters::KINDS.iter().filter(|kind| count >= 1_000_000 && times(kind) == 0) {
        println!("archive, hop counters: never met: {kind}");
        differences += 1;
    }
    println!("archive: {made} calls, {differences} differences");
    differences == 0
}
