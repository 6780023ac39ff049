//! Days through sua_tally and bindings/rust, beside a plain reading of what each message adds; and all that it refuses.

mod made;
mod plain;
mod rules;

use crate::random::{Group, Random};
use plain::{kinds, placed, KINDS};
use std::collections::BTreeMap;

extern "C" {
    fn sua_tally(
        digits: *const u8,
        digits_n: usize,
        lengths: *const u8,
        lengths_n: usize,
        input: *const u8,
        n: usize,
        messages: *mut u64,
        messages_n: usize,
        octets: *mut u64,
        octets_n: usize,
        report: *mut u64,
        report_n: usize,
    ) -> u64;
}

/// The messages of a day.
const DAY: usize = 100_000;
/// The messages that the rows hold together, at most, and the octets of a message.
const MOST_MESSAGES: u64 = 4_294_967_295;
const MOST_VALUE: u64 = 65_531;

/// What days and swaps must show of the rows.
const ROWS: [&str; 4] = ["every row gains", "a swap in a row", "a swap between rows", "a swap of 65,531 octets"];

/// A member's prefix, as characters.
type Prefix = Vec<u8>;

/// A member list as it is lent.
#[derive(Clone, Debug)]
pub struct List {
    pub digits: Vec<u8>,
    pub lengths: Vec<u8>,
}

impl List {
    pub fn of(prefixes: &[Prefix]) -> List {
        List { digits: prefixes.concat(), lengths: prefixes.iter().map(|p| p.len() as u8).collect() }
    }
}

#[derive(Clone, Debug, PartialEq, Eq)]
pub struct Rows {
    pub messages: Vec<u64>,
    pub octets: Vec<u64>,
}

impl Rows {
    pub fn none(count: usize) -> Rows {
        Rows { messages: vec![0; count], octets: vec![0; count] }
    }

    fn add(&mut self, row: usize, octets: u64) {
        self.messages[row] += 1;
        self.octets[row] += octets;
    }
}

pub fn call(list: &List, input: &[u8], messages: &mut [u64], octets: &mut [u64], report: &mut [u64]) -> u64 {
    let (d, l) = (&list.digits, &list.lengths);
    let (m, o) = ((messages.as_mut_ptr(), messages.len()), (octets.as_mut_ptr(), octets.len()));
    let (r, i) = ((report.as_mut_ptr(), report.len()), (input.as_ptr(), input.len()));
    // SAFETY: each pointer comes from a slice with its length, and the slices do not overlap.
    unsafe { sua_tally(d.as_ptr(), d.len(), l.as_ptr(), l.len(), i.0, i.1, m.0, m.1, o.0, o.1, r.0, r.1) }
}

/// What was seen, and what differed.
#[derive(Default)]
pub struct Check {
    calls: u64,
    differences: u64,
    seen: BTreeMap<&'static str, u64>,
}

impl Check {
    fn see(&mut self, kind: &'static str) {
        *self.seen.entry(kind).or_default() += 1;
    }

    fn holds(&mut self, right: bool, what: impl FnOnce() -> String) -> bool {
        if !right {
            self.differences += 1;
            if self.differences <= 5 {
                println!("tally: {}", what());
            }
        }
        right
    }

    /// What was seen of these, and how often; what was not is a difference.
    fn listed(&mut self, what: &str, kinds: &[&'static str]) {
        let seen: Vec<String> = kinds.iter().map(|kind| format!("{kind}: {}", self.seen.get(kind).unwrap_or(&0))).collect();
        println!("tally, {what}: {}", seen.join(", "));
        for kind in kinds {
            let seen = self.seen.contains_key(kind);
            self.holds(seen, || format!("never seen: {kind}"));
        }
    }

    /// One call, which must answer this row, or 16, and leave the rows so. What stands around rows and report, and behind the
    /// report's four numbers, must be left alone.
    fn answers(
        &mut self,
        r: &mut Random,
        what: &str,
        list: &List,
        input: &[u8],
        before: &Rows,
        after: (Option<usize>, &Rows),
    ) -> bool {
        let (row, rows) = after;
        let numbers = row.map_or([16, 0, 0, 0], |row| [0, row as u64, 0, 0]);
        let places = if r.once_in(16) { r.below(6) } else { 4 };
        let around = |numbers: &[u64]| [&[77], numbers, &[77]].concat();
        let (mut messages, mut octets) = (around(&before.messages), around(&before.octets));
        let (m, o) = (messages.len() - 1, octets.len() - 1);
        let mut report = [77; 6];
        let number = call(list, input, &mut messages[1..m], &mut octets[1..o], &mut report[..places]);
        let mut wanted = [77; 6];
        wanted[..places.min(4)].copy_from_slice(&numbers[..places.min(4)]);
        self.calls += 1;
        let right =
            number == numbers[0] && report == wanted && messages == around(&rows.messages) && octets == around(&rows.octets);
        self.holds(right, || {
            let shown: String = input.iter().take(400).map(|b| format!("{b:02x}")).collect();
            format!(
                "{what}: {list:?}, {} octets {shown}, {before:?}\n  \
                 expected: {numbers:?} {rows:?}\n  \
                 the port: {number} {report:?} {messages:?} {octets:?}",
                input.len()
            )
        })
    }
}

/// The rows of a day, by the entry, from rows of 0.
fn day<'a>(check: &mut Check, list: &List, messages: impl Iterator<Item = &'a Vec<u8>>) -> Rows {
    let mut rows = Rows::none(list.lengths.len() + 2);
    for input in messages {
        check.calls += 1;
        let number = call(list, input, &mut rows.messages, &mut rows.octets, &mut []);
        check.holds(number == 0, || format!("a call of a day is refused as {number}"));
    }
    rows
}

/// The same by bindings/rust.
fn typed_day(prefixes: &[Prefix], messages: &[Vec<u8>]) -> Result<Rows, navrost::Refusal> {
    let mut day = navrost::Tally::new(prefixes)?;
    for input in messages {
        day.add(input)?;
    }
    Ok(Rows { messages: day.rows().map(|row| row.messages).collect(), octets: day.rows().map(|row| row.octets).collect() })
}

/// A day under a list of members: as made, call by call, beside the plain reading; in another order; in three parts; and with
/// a message swapped.
fn compare_day(check: &mut Check, r: &mut Random, prefixes: &[Prefix]) {
    let list = List::of(prefixes);
    let mut messages: Vec<Vec<u8>> = (0..DAY).map(|_| made::message(r, prefixes)).collect();
    let mut rows = Rows::none(prefixes.len() + 2);
    for input in &messages {
        let (row, octets) = placed(prefixes, input);
        kinds(prefixes, input).into_iter().for_each(|kind| check.see(kind));
        let before = rows.clone();
        rows.add(row, octets);
        check.answers(r, "a day", &list, input, &before, (Some(row), &rows));
    }

    let whole = day(check, &list, messages.iter());
    check.holds(whole == rows, || format!("the day at once: {whole:?} instead of {rows:?}"));
    let total: u64 = whole.messages.iter().sum();
    check.holds(total == DAY as u64, || format!("the rows add up to {total} messages, of {DAY}"));
    if whole.messages.iter().all(|n| *n > 0) {
        check.see("every row gains");
    }
    for i in (1..DAY).rev() {
        messages.swap(i, r.below(i + 1));
    }
    let shuffled = day(check, &list, messages.iter());
    check.holds(shuffled == whole, || format!("another order: {shuffled:?} instead of {whole:?}"));

    let mut cuts = [r.below(DAY + 1), r.below(DAY + 1)];
    cuts.sort_unstable();
    let parts = [&messages[..cuts[0]], &messages[cuts[0]..cuts[1]], &messages[cuts[1]..]];
    let mut added = Rows::none(prefixes.len() + 2);
    for part in parts {
        let rows = day(check, &list, part.iter());
        let typed = typed_day(prefixes, part);
        check.holds(typed.as_ref() == Ok(&rows), || format!("bindings/rust: {typed:?} instead of {rows:?}"));
        added.messages.iter_mut().zip(&rows.messages).for_each(|(sum, n)| *sum += n);
        added.octets.iter_mut().zip(&rows.octets).for_each(|(sum, n)| *sum += n);
    }
    check.holds(added == whole, || format!("in parts: {added:?} instead of {whole:?}"));

    for _ in 0..20 {
        swap(check, r, prefixes, &messages[..1_000]);
    }
}

/// A day with one message put for another: no row moves by more than one message and 65,531 octets.
fn swap(check: &mut Check, r: &mut Random, prefixes: &[Prefix], messages: &[Vec<u8>]) {
    let list = List::of(prefixes);
    let at = r.below(messages.len());
    let mut swapped = messages.to_vec();
    swapped[at] = if r.once_in(2) { made::message(r, prefixes) } else { made::longest(r, prefixes) };
    let (before, after) = (day(check, &list, messages.iter()), day(check, &list, swapped.iter()));
    let most = |a: &[u64], b: &[u64]| a.iter().zip(b).map(|(a, b)| a.abs_diff(*b)).max().unwrap_or(0);
    let moved = (most(&before.messages, &after.messages), most(&before.octets, &after.octets));
    check.holds(moved.0 <= 1 && moved.1 <= MOST_VALUE, || format!("a swap moves a row by {moved:?}"));
    check.see(match moved {
        (0, _) => "a swap in a row",
        (_, MOST_VALUE) => "a swap of 65,531 octets",
        _ => "a swap between rows",
    });
}

/// Compares so many messages in days, three at least, and what is refused; true where nothing differs and all was seen.
pub fn compare(count: u64, seed: u64) -> bool {
    let mut check = Check::default();
    let days = (count / DAY as u64).max(3);
    for i in 0..days {
        let mut r = Random::nth(Group::Tally, seed, i);
        let members = [64, 1, 2 + r.below(62)][i as usize % 3];
        let prefixes = made::prefixes(&mut r, members);
        compare_day(&mut check, &mut r, &prefixes);
    }
    let mut r = Random::nth(Group::TallyRules, seed, 0);
    rules::compare(&mut check, &mut r);
    check.listed(&format!("{days} days of {DAY}"), &KINDS);
    check.listed("rows", &ROWS);
    check.listed("refused as 16, or just not", &rules::names());
    println!("tally: {} calls, {} differences", check.calls, check.differences);
    check.differences == 0
}
