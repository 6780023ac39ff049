//! What kind of table a call of `screen` is given, read off its numbers and the accessors' answers. `contexts` shares some.

use crate::absent::{of_title, titles};
use crate::calls::{Call, SCREENED};
use crate::generate::{refusals, wanted};
use std::collections::BTreeMap;

/// The columns of a table.
const COLUMNS: [&str; 3] = ["tags", "starts", "lengths"];
const ALL: &str = "a count beyond all columns";
/// What an address can be refused as, but for 15.
const REFUSALS: [u64; 7] = [1, 5, 6, 7, 8, 12, 13];

const TABLES: &str = "tables";
pub const OUTSIDE: &str = "15 by";
const REPEATED: &str = "repeated, and a later one reads otherwise";
const SHORT: &str = "under four octets";
const SHORT_FIRST: &str = "under four octets, and a later one not";
const REFUSED: [&str; 2] = ["source refused beside a good destination", "destination refused beside a good source"];
const ADDRESSES: &str = "addresses";
const RAN_SHORT: [&str; 2] = ["source's title ran short", "destination's title ran short"];

/// A group of kinds, and the kind in it.
pub type Kind = (&'static str, String);

/// The groups of kinds that a comparison must meet.
pub fn groups() -> Vec<(&'static str, Vec<String>)> {
    let tables = [
        "no record",
        "64 records",
        "columns of different lengths",
        "a record outside behind the count",
        "a wanted tag behind the count alone",
        "a tag one bit from an absent one",
        "all seven tags",
    ];
    let outside = [
        "a start",
        "a length",
        "a sum over 2^64",
        "the first record alone",
        "the last record alone",
        "a wanted tag's record alone",
        "another tag's record alone",
    ];
    let addresses = ["both good", "both refused", "source with others", "destination with others", "both with others"];
    let refused = || REFUSALS.iter().map(u64::to_string).collect();
    let short =
        ["by an odd count", "by an even count", "the first of two alone", "the last of two alone", "beside the other's"];
    vec![
        (TABLES, texts(&tables)),
        (OUTSIDE, [by_count(), texts(&outside)].concat()),
        (REPEATED, texts(&SCREENED)),
        (SHORT, texts(&SCREENED[..5])),
        (SHORT_FIRST, texts(&SCREENED[..5])),
        (REFUSED[0], refused()),
        (REFUSED[1], refused()),
        (ADDRESSES, texts(&addresses)),
        (RAN_SHORT[0], texts(&short)),
        (RAN_SHORT[1], texts(&short)),
    ]
}

pub fn texts(list: &[&str]) -> Vec<String> {
    list.iter().map(|text| text.to_string()).collect()
}

/// Prints how often each kind was met; where there were many tables, the number that never were.
pub fn listed(what: &str, groups: Vec<(&str, Vec<String>)>, met: &BTreeMap<Kind, u64>, many: bool) -> u64 {
    let mut never = 0;
    for (group, kinds) in groups {
        let times = |kind: &String| met.get(&(group, kind.clone())).copied().unwrap_or(0);
        let texts: Vec<String> = kinds.iter().map(|kind| format!("{kind}: {}", times(kind))).collect();
        println!("{what}, {group}: {}", texts.join(", "));
        for kind in kinds.iter().filter(|kind| many && times(kind) == 0) {
            println!("{what}, {group}: never met: {kind}");
            never += 1;
        }
    }
    never
}

/// The ways in which a count is beyond a table.
pub fn by_count() -> Vec<String> {
    [COLUMNS.map(beyond).to_vec(), texts(&[ALL])].concat()
}

fn beyond(column: &str) -> String {
    format!("a count beyond the {column} alone")
}

/// Those kinds of a group that hold.
pub fn holding(group: &'static str, kinds: &[(&str, bool)]) -> Vec<Kind> {
    kinds.iter().filter(|(_, holds)| *holds).map(|(kind, _)| (group, kind.to_string())).collect()
}

fn is_wanted(tag: u16) -> bool {
    SCREENED.iter().any(|name| wanted(name) == tag)
}

/// A table as a call gives it.
pub struct Table<'a> {
    pub count: u64,
    columns: [&'a [u64]; 3],
    values: &'a [u8],
    /// The numbers behind it.
    pub behind: &'a [u64],
}

impl<'a> Table<'a> {
    /// The table at a place of a call's numbers.
    pub fn of(call: &'a Call, at: usize) -> Table<'a> {
        let mut left = &call.numbers[at..];
        let columns = [(); 3].map(|()| {
            let (column, behind) = left[1..].split_at(left[0] as usize);
            left = behind;
            column
        });
        Table { count: call.numbers[0], columns, values: &call.octets[0], behind: left }
    }

    /// The rows that have a tag, a start and a length.
    pub fn rows(&self) -> usize {
        self.columns.iter().map(|column| column.len()).min().unwrap_or(0)
    }

    pub fn tag(&self, row: usize) -> u16 {
        self.columns[0][row] as u16
    }

    /// None where the record reaches outside the values.
    pub fn value(&self, row: usize) -> Option<&'a [u8]> {
        let (start, length) = (self.columns[1][row], self.columns[2][row]);
        let end = start.checked_add(length)?;
        (end <= self.values.len() as u64).then(|| &self.values[start as usize..end as usize])
    }

    /// The records that reach outside the values, where the count is not beyond a column.
    pub fn outside(&self) -> Vec<usize> {
        (0..self.count as usize).filter(|row| self.value(*row).is_none()).collect()
    }
}

/// The kinds of a table whose count is beyond a column.
pub fn count_outside(table: &Table) -> Option<Vec<Kind>> {
    let short: Vec<usize> = (0..3).filter(|i| table.count > table.columns[*i].len() as u64).collect();
    match short.as_slice() {
        [] => None,
        [column] => Some(vec![(OUTSIDE, beyond(COLUMNS[*column]))]),
        all => Some(holding(OUTSIDE, &[(ALL, all.len() == 3)])),
    }
}

/// The kinds of a call whose accessors gave these answers.
pub fn kinds(call: &Call, answers: &[String]) -> Vec<Kind> {
    let table = Table::of(call, 7);
    if let Some(kinds) = count_outside(&table) {
        return kinds;
    }
    match table.outside().as_slice() {
        [] => [whole(&table), fields(&table), addresses(answers), ran_short(&table, answers)].concat(),
        [row] => record_outside(&table, *row),
        _ => Vec::new(),
    }
}

/// How the only record that does reaches outside the values.
fn record_outside(table: &Table, row: usize) -> Vec<Kind> {
    let (start, length) = (table.columns[1][row], table.columns[2][row]);
    let start_outside = start > table.values.len() as u64;
    let is_wanted = is_wanted(table.tag(row));
    holding(
        OUTSIDE,
        &[
            ("a start", start_outside),
            ("a length", !start_outside),
            ("a sum over 2^64", start.checked_add(length).is_none()),
            ("the first record alone", table.count > 1 && row == 0),
            ("the last record alone", table.count > 1 && row as u64 + 1 == table.count),
            ("a wanted tag's record alone", is_wanted),
            ("another tag's record alone", !is_wanted),
        ],
    )
}

/// What a table is like that is not refused as 15.
fn whole(table: &Table) -> Vec<Kind> {
    let (count, rows) = (table.count as usize, table.rows());
    let has = |from: usize, to: usize, name: &str| (from..to).any(|row| table.tag(row) == wanted(name));
    let near =
        |name: &str| (0..count).any(|row| (table.tag(row) ^ wanted(name)).count_ones() == 1 && !is_wanted(table.tag(row)));
    holding(
        TABLES,
        &[
            ("no record", count == 0),
            ("64 records", count == 64),
            ("columns of different lengths", table.columns.iter().any(|column| column.len() != rows)),
            ("a record outside behind the count", (count..rows).any(|row| table.value(row).is_none())),
            ("a wanted tag behind the count alone", SCREENED.iter().any(|name| !has(0, count, name) && has(count, rows, name))),
            ("a tag one bit from an absent one", SCREENED.iter().any(|name| !has(0, count, name) && near(name))),
            ("all seven tags", SCREENED.iter().all(|name| has(0, count, name))),
        ],
    )
}

/// What an accessor reads of a value.
fn part<'a>(name: &str, value: &'a [u8]) -> Option<&'a [u8]> {
    let four = value.get(..4);
    match name {
        "routing_context" | "sequence_control" => four,
        "protocol_class" | "ss7_hop_count" => four.map(|four| &four[3..]),
        "sccp_cause" => four.map(|four| &four[2..]),
        _ => Some(value),
    }
}

/// Which fields are repeated or short.
fn fields(table: &Table) -> Vec<Kind> {
    let mut kinds = Vec::new();
    for name in SCREENED {
        let rows = (0..table.count as usize).filter(|row| table.tag(*row) == wanted(name));
        let parts: Vec<Option<&[u8]>> = rows.filter_map(|row| table.value(row)).map(|value| part(name, value)).collect();
        if let Some((first, later)) = parts.split_first() {
            kinds.extend(holding(REPEATED, &[(name, later.iter().any(|other| other != first))]));
            kinds.extend(holding(SHORT, &[(name, first.is_none())]));
            kinds.extend(holding(SHORT_FIRST, &[(name, first.is_none() && later.iter().any(Option::is_some))]));
        }
    }
    kinds
}

/// What became of the two addresses.
fn addresses(answers: &[String]) -> Vec<Kind> {
    let [source, destination] = [5, 6].map(|i| refusals(SCREENED[i], &answers[i])[0]);
    let [one, two] = [5, 6].map(|i| answers[i].starts_with("ok") && !answers[i].contains(" 0 t"));
    let mut kinds = holding(
        ADDRESSES,
        &[
            ("both good", source == 0 && destination == 0),
            ("both refused", source != 0 && destination != 0),
            ("source with others", one),
            ("destination with others", two),
            ("both with others", one && two),
        ],
    );
    match (source, destination) {
        (0, 0) => {}
        (n, 0) => kinds.push((REFUSED[0], n.to_string())),
        (0, n) => kinds.push((REFUSED[1], n.to_string())),
        _ => {}
    }
    kinds
}

/// The titles of an address that its accessor does not refuse.
fn titles_in<'a>(table: &Table<'a>, name: &str, answer: &str) -> Vec<&'a [u8]> {
    let first = (0..table.count as usize).find(|row| table.tag(*row) == wanted(name));
    match first.and_then(|row| table.value(row)) {
        Some(value) if answer.starts_with("ok") => titles(value),
        _ => Vec::new(),
    }
}

/// How titles of the two addresses ran short, of which the last holds.
fn ran_short(table: &Table, answers: &[String]) -> Vec<Kind> {
    let both = [5, 6].map(|i| titles_in(table, SCREENED[i], &answers[i]));
    let is_short = [0, 1].map(|i| both[i].last().is_some_and(|title| of_title(title) > 0));
    let of = |i: usize| {
        let (short, odd) = (is_short[i], both[i].last().is_some_and(|title| title[4] % 2 == 1));
        let absent: Vec<usize> = both[i].iter().map(|title| of_title(title)).collect();
        holding(
            RAN_SHORT[i],
            &[
                ("by an odd count", short && odd),
                ("by an even count", short && !odd),
                ("the first of two alone", matches!(absent[..], [(1..), 0])),
                ("the last of two alone", matches!(absent[..], [0, (1..)])),
                ("beside the other's", short && is_short[1 - i]),
            ],
        )
    };
    [of(0), of(1)].concat()
}
