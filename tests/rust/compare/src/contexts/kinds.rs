//! What kind of table and set a call of `contexts_in` is given, read off its numbers.

use super::numbers;
use crate::calls::{all_in, Call};
use crate::oracle::MOST_OCTETS;
use crate::screen::kinds::{by_count, count_outside, holding, texts, Kind, Table, OUTSIDE};
use std::collections::BTreeSet;
use sua::parameter::tags::ROUTING_CONTEXT;

const YES: &str = "yes";
const NO: &str = "no";
const FIRST: &str = "the first decides";
const ACCESSOR: &str = "beside the accessor";

/// The groups of kinds that a comparison must meet.
pub fn groups() -> Vec<(&'static str, Vec<String>)> {
    let yes = [
        "one value",
        "several values",
        "16 values",
        "over 1,048,576 octets",
        "a set in another order",
        "a set with more numbers",
        "a number twice in the set",
        "a value twice",
    ];
    let no = [
        "the first of several missing alone",
        "a middle one missing alone",
        "the last of several missing alone",
        "none of several in the set",
        "one bit from a number of the set",
        "in the set with the octets turned around",
        "1 octet behind values in the set",
        "2 octets behind values in the set",
        "3 octets behind values in the set",
        "1 octet",
        "2 octets",
        "3 octets",
        "an empty value",
        "an empty set",
        "no record",
        "no such parameter",
    ];
    let first = [
        "no, and a later one would be yes",
        "yes, and a later one would be no",
        "none, and one behind the count would be yes",
        "none, and a tag one bit away would be yes",
    ];
    let outside = [
        "the first such record alone",
        "a later such record alone, the first in the set",
        "another record before a first one in the set",
        "another record behind a first one in the set",
        "another record, and no such parameter",
    ];
    let accessor = ["equal", "not equal", "under four octets", "absent", "15"];
    vec![
        (YES, texts(&yes)),
        (NO, texts(&no)),
        (FIRST, texts(&first)),
        (OUTSIDE, [by_count(), texts(&outside)].concat()),
        (ACCESSOR, texts(&accessor)),
    ]
}

/// A table and a set as a call gives them.
pub struct Asked<'a> {
    table: Table<'a>,
    set: Vec<u32>,
}

impl<'a> Asked<'a> {
    pub fn of(call: &'a Call) -> Asked<'a> {
        let table = Table::of(call, 1);
        let set = table.behind[1..].iter().map(|n| *n as u32).collect();
        Asked { table, set }
    }

    /// The records with a tag, from a row on and before another.
    fn tagged(&self, tag: u16, from: usize, to: usize) -> impl Iterator<Item = usize> + '_ {
        (from..to).filter(move |row| self.table.tag(*row) == tag)
    }

    /// The records that reach outside; none where the count does.
    fn outside(&self) -> Option<Vec<usize>> {
        count_outside(&self.table).is_none().then(|| self.table.outside())
    }

    /// The first Routing Context, of a table that is not refused.
    fn first(&self) -> Option<&'a [u8]> {
        self.tagged(ROUTING_CONTEXT, 0, self.table.count as usize).next().and_then(|row| self.table.value(row))
    }

    fn would_be_yes(&self, row: usize) -> bool {
        self.table.value(row).is_some_and(|value| all_in(value, &self.set))
    }

    /// The only number of the set, where the table is refused or the first Routing Context has no more than four octets.
    pub fn single(&self) -> Option<u32> {
        let [number] = self.set[..] else { return None };
        let refused = self.outside().map_or(true, |rows| !rows.is_empty());
        (refused || self.first().map_or(true, |value| value.len() <= 4)).then_some(number)
    }

    pub fn kinds(&self) -> Vec<Kind> {
        let by = match self.outside().as_deref() {
            None => count_outside(&self.table).unwrap_or_default(),
            Some([]) => return [self.whole(), self.order(), self.accessor()].concat(),
            Some([row]) => self.record_outside(*row),
            Some(_) => Vec::new(),
        };
        [by, holding(ACCESSOR, &[("15", self.single().is_some())])].concat()
    }

    /// How the only record that does reaches outside the values.
    fn record_outside(&self, row: usize) -> Vec<Kind> {
        let first = self.tagged(ROUTING_CONTEXT, 0, self.table.count as usize).next();
        let such = self.table.tag(row) == ROUTING_CONTEXT;
        let good = first.is_some_and(|first| self.would_be_yes(first));
        holding(
            OUTSIDE,
            &[
                ("the first such record alone", first == Some(row)),
                ("a later such record alone, the first in the set", such && good),
                ("another record before a first one in the set", !such && good && first > Some(row)),
                ("another record behind a first one in the set", !such && good && first < Some(row)),
                ("another record, and no such parameter", first.is_none()),
            ],
        )
    }

    fn whole(&self) -> Vec<Kind> {
        match self.first() {
            None if self.table.count == 0 => holding(NO, &[("no record", true)]),
            None => holding(NO, &[("no such parameter", true)]),
            Some(value) if all_in(value, &self.set) => self.yes(value),
            Some(value) => self.no(value),
        }
    }

    fn yes(&self, value: &[u8]) -> Vec<Kind> {
        let values = numbers(value);
        let mut different: Vec<u32> = Vec::new();
        for n in &values {
            if different.last() != Some(n) && !different.contains(n) {
                different.push(*n);
            }
        }
        let places: Vec<_> = different.iter().map(|n| self.set.iter().position(|other| other == n)).collect();
        let set: BTreeSet<&u32> = self.set.iter().collect();
        holding(
            YES,
            &[
                ("one value", values.len() == 1),
                ("several values", values.len() > 1),
                ("16 values", values.len() == 16),
                ("over 1,048,576 octets", value.len() > MOST_OCTETS),
                ("a set in another order", places.windows(2).any(|two| two[0] > two[1])),
                ("a set with more numbers", set.len() > different.len()),
                ("a number twice in the set", set.len() < self.set.len()),
                ("a value twice", different.len() < values.len()),
            ],
        )
    }

    fn no(&self, value: &[u8]) -> Vec<Kind> {
        let values = numbers(value);
        let (n, more) = (values.len(), value.len() % 4);
        let missing: Vec<usize> = (0..n).filter(|i| !self.set.contains(&values[*i])).collect();
        let alone = if n > 1 && more == 0 && missing.len() == 1 { missing.first().copied() } else { None };
        let near = |i: &usize| self.set.iter().any(|other| (other ^ values[*i]).count_ones() == 1);
        let turned: Vec<u8> = values.iter().flat_map(|n| n.to_le_bytes()).collect();
        let behind = |octets: usize| more == octets && n > 0 && missing.is_empty();
        holding(
            NO,
            &[
                ("the first of several missing alone", alone == Some(0)),
                ("a middle one missing alone", alone.is_some_and(|i| 0 < i && i + 1 < n)),
                ("the last of several missing alone", alone == Some(n.wrapping_sub(1))),
                ("none of several in the set", n > 1 && more == 0 && missing.len() == n && !self.set.is_empty()),
                ("one bit from a number of the set", more == 0 && missing.len() == 1 && missing.iter().all(near)),
                ("in the set with the octets turned around", more == 0 && all_in(&turned, &self.set)),
                ("1 octet behind values in the set", behind(1)),
                ("2 octets behind values in the set", behind(2)),
                ("3 octets behind values in the set", behind(3)),
                ("1 octet", value.len() == 1),
                ("2 octets", value.len() == 2),
                ("3 octets", value.len() == 3),
                ("an empty value", value.is_empty()),
                ("an empty set", n > 0 && more == 0 && self.set.is_empty()),
            ],
        )
    }

    /// What the records say that are not asked for.
    fn order(&self) -> Vec<Kind> {
        let (count, rows) = (self.table.count as usize, self.table.rows());
        let mut such = self.tagged(ROUTING_CONTEXT, 0, count).map(|row| self.would_be_yes(row));
        let first = such.next();
        let later: Vec<bool> = such.collect();
        let near = |row: usize| (self.table.tag(row) ^ ROUTING_CONTEXT).count_ones() == 1 && self.would_be_yes(row);
        let behind = self.tagged(ROUTING_CONTEXT, count, rows).any(|row| self.would_be_yes(row));
        holding(
            FIRST,
            &[
                ("no, and a later one would be yes", first == Some(false) && later.contains(&true)),
                ("yes, and a later one would be no", first == Some(true) && later.contains(&false)),
                ("none, and one behind the count would be yes", first.is_none() && behind),
                ("none, and a tag one bit away would be yes", first.is_none() && (0..count).any(near)),
            ],
        )
    }

    /// How the accessor's value, compared with the only number of the set, is the answer.
    fn accessor(&self) -> Vec<Kind> {
        let Some(number) = self.single() else { return Vec::new() };
        let value = self.first().map(numbers);
        holding(
            ACCESSOR,
            &[
                ("equal", value == Some(vec![number])),
                ("not equal", value.as_ref().is_some_and(|value| value.len() == 1 && value[0] != number)),
                ("under four octets", value == Some(vec![])),
                ("absent", value.is_none()),
            ],
        )
    }
}
