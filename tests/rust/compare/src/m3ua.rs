//! M3UA through the entries for C and through bindings/rust, beside a plain reading of RFC 4666's layout: settle, read and encode;
//! and what holds of each message that is accepted.

pub mod capture;
pub mod families;
mod kinds;
mod lists;
mod made;
pub mod plain;

use crate::entries::{Entry, Family};
use crate::lent::{how, shown, Lent};
use crate::oracle::{flat_list, refused, Answer};
use crate::random::{Group, Random};
use crate::screen::kinds::listed;
use navrost::m3ua;
use std::collections::BTreeMap;

/// The messages and lists that are compared, at least.
const LEAST: u64 = 200_000;

const ANSWERS: &str = "answers";

/// What a call of an entry can answer, by number and room.
fn answers(entry: Entry) -> Vec<String> {
    let refusals: &[&str] = match entry {
        Entry::Settle | Entry::Read => &["1", "2", "4", "5", "6", "12"],
        Entry::Encode(..) => &["4", "10", "12", "15"],
    };
    let by_room = ["just enough room", "more room", "14 an octet short", "14 without room", "14"];
    by_room.iter().chain(refusals).map(|answer| format!("{} {answer}", entry.name())).collect()
}

/// The octets that the account takes which bindings/rust hands out.
fn taken(account: &m3ua::Account<'_>) -> usize {
    6 + account.parameters().map(|p| if p.protocol_data.is_some() { 30 } else { 10 }).sum::<usize>()
}

/// The call of bindings/rust.
fn typed(entry: Entry, input: &[u8], out: &mut [u8]) -> Answer<usize> {
    let answer = match entry {
        Entry::Settle => m3ua::settle(input, out),
        Entry::Read => m3ua::read(input, out).map(|account| taken(&account)),
        Entry::Encode(class, msg_type) => m3ua::encode(class, msg_type, input, out),
    };
    answer.map_err(refused)
}

/// What bindings/rust tells of a message: class, type, each tag with its value, and the parts of each Protocol Data.
#[derive(Debug, PartialEq, Eq)]
struct Told<'a> {
    pair: (u8, u8),
    count: usize,
    list: Vec<(u16, &'a [u8])>,
    parts: Vec<Option<plain::ProtocolData<'a>>>,
}

impl<'a> Told<'a> {
    fn by(account: &m3ua::Account<'a>) -> Told<'a> {
        let parts = account.parameters().map(|p| {
            p.protocol_data.map(|data| plain::ProtocolData {
                originating: data.originating,
                destination: data.destination,
                service_indicator: data.service_indicator,
                network_indicator: data.network_indicator,
                priority: data.priority,
                selection: data.selection,
                payload: data.payload,
            })
        });
        Told {
            pair: (account.message_class(), account.message_type()),
            count: account.len(),
            list: account.parameters().map(|p| (p.tag, p.value)).collect(),
            parts: parts.collect(),
        }
    }

    /// What it should tell of a message that was read plainly.
    fn of(message: &plain::Message<'a>) -> Told<'a> {
        let parts = message.parameters.iter().map(|p| match p.tag {
            plain::PROTOCOL_DATA => plain::protocol_data(p.value).ok(),
            _ => None,
        });
        Told {
            pair: (message.class, message.msg_type),
            count: message.parameters.len(),
            list: message.parameters.iter().map(|p| (p.tag, p.value)).collect(),
            parts: parts.collect(),
        }
    }
}

/// What was met, and what differed.
#[derive(Default)]
struct Check {
    /// The message that is compared, for what is printed.
    place: String,
    calls: u64,
    accepted: u64,
    differences: u64,
    kinds: BTreeMap<kinds::Kind, u64>,
    answers: BTreeMap<(&'static str, String), u64>,
}

impl Check {
    fn holds(&mut self, right: bool, what: impl FnOnce() -> String) {
        if !right {
            self.differences += 1;
            if self.differences <= 5 {
                println!("m3ua: {}: {}", self.place, what());
            }
        }
    }

    /// A call of the entry and one of bindings/rust, with an output of this length that holds anything: both must answer so.
    fn answers(&mut self, r: &mut Random, entry: Entry, input: &[u8], expected: &Answer<Vec<u8>>, room: usize) {
        let lent = Lent::new(r, expected, room);
        let differences = [
            lent.entry(r, |out, report| entry.call(Family::M3ua, input, out, report)),
            lent.typed(|out| typed(entry, input, out)),
        ];
        self.calls += 1;
        for difference in differences.into_iter().flatten() {
            self.holds(false, || format!("{entry:?}, {} octets {}, {difference}", input.len(), shown(input)));
        }
        *self.answers.entry((ANSWERS, format!("{} {}", entry.name(), how(expected, room)))).or_default() += 1;
    }

    /// One call, or two where the input is accepted: with just enough room, and with more, an octet less, some, or none.
    fn compare(&mut self, r: &mut Random, entry: Entry, input: &[u8], expected: &Answer<Vec<u8>>) {
        match expected {
            Ok(octets) => {
                let n = octets.len();
                self.answers(r, entry, input, expected, n);
                let other = [n + 1 + r.below(40), n - 1, n - 1, r.below(n), 0];
                let room = r.pick(&other);
                self.answers(r, entry, input, expected, room);
            }
            Err(_) => {
                let room = r.pick(&[0, 8, 200]);
                self.answers(r, entry, input, expected, room);
            }
        }
    }

    /// A message, settled and read.
    fn message(&mut self, r: &mut Random, input: &[u8]) {
        kinds::of_message(input).count(&mut self.kinds);
        self.settled(r, input);
        let read = plain::read(input);
        self.compare(r, Entry::Read, input, &plain::account(input));
        let reading = m3ua::read_vec(input).map_err(refused);
        let told = reading.as_ref().map(|reading| Told::by(&reading.account()));
        self.holds(told == read.as_ref().map(Told::of), || {
            format!("read_vec gives {:?}: {}", told.as_ref().err(), shown(input))
        });
        if let Ok(told) = told {
            self.laws(r, input, &told);
        }
    }

    fn settled(&mut self, r: &mut Random, input: &[u8]) {
        let form = plain::form(input);
        self.compare(r, Entry::Settle, input, &form);
        let settled = m3ua::settle_vec(input).map_err(refused);
        self.holds(settled == form, || format!("settle_vec: {}", shown(input)));
        let length = m3ua::settled_length(input).map_err(refused);
        self.holds(length == form.map(|form| form.len()), || format!("settled_length gives {length:?}: {}", shown(input)));
    }

    /// What holds of a message that is accepted, as it was read, and of its form, all by the archive's answers: the form settles to
    /// itself and is read as the message is; a message that differs in what means nothing has the same form; and encoding
    /// gives the form of what was read.
    fn laws(&mut self, r: &mut Random, input: &[u8], told: &Told<'_>) {
        self.accepted += 1;
        let Ok(form) = m3ua::settle_vec(input) else {
            return self.holds(false, || format!("read and not settled: {}", shown(input)));
        };
        let gives = |answer: &Result<Vec<u8>, navrost::Refusal>| answer.as_deref() == Ok(&form[..]);
        let again = m3ua::settle_vec(&form);
        self.holds(gives(&again), || format!("a form settles as {again:?}: {}", shown(&form)));
        let reading = m3ua::read_vec(&form);
        let read = reading.as_ref().map(|reading| Told::by(&reading.account()));
        self.holds(read.as_ref() == Ok(told), || format!("a form is read otherwise: {}", shown(&form)));
        let (class, msg_type) = told.pair;
        let copy = made::dirty(r, class, msg_type, &told.list);
        let settled = m3ua::settle_vec(&copy);
        self.holds(gives(&settled), || format!("{} settles as {settled:?}: {}", shown(&copy), shown(&form)));
        let encoded = m3ua::encode_vec(class, msg_type, &told.list);
        self.holds(gives(&encoded), || format!("encoding gives {encoded:?}: {}", shown(&form)));
    }

    /// A list, written as a message.
    fn list(&mut self, r: &mut Random, (class, msg_type): (u8, u8), list: &[u8]) {
        kinds::of_list(class, msg_type, list).count(&mut self.kinds);
        let written = plain::encode_flat(class, msg_type, list);
        self.compare(r, Entry::Encode(class, msg_type), list, &written);
        if let Ok(parameters) = flat_list(list) {
            let encoded = m3ua::encode_vec(class, msg_type, &parameters).map_err(refused);
            self.holds(encoded == written, || format!("encode_vec: {class} {msg_type} {}", shown(list)));
        }
    }

    /// Prints how often each kind was met; one that never was is a difference.
    fn listed(&mut self) {
        let entries = [Entry::Settle, Entry::Read, Entry::Encode(0, 0)];
        let mut groups = vec![(ANSWERS, entries.into_iter().flat_map(answers).collect())];
        groups.extend(kinds::groups());
        let mut met = kinds::met(&self.kinds);
        met.append(&mut self.answers);
        self.differences += listed("m3ua", groups, &met, true);
    }
}

/// Compares so many random messages and lists, 200,000 of each at least; true where nothing differs and every kind was met.
pub fn compare(count: u64, seed: u64) -> bool {
    let mut check = Check::default();
    let count = count.max(LEAST);
    for i in 0..count {
        check.place = format!("message {i} of seed {seed}");
        let mut r = Random::nth(Group::M3ua, seed, i);
        let input = made::any_message(&mut r);
        check.message(&mut r, &input);
        let (pair, list) = (lists::any_pair(&mut r), lists::any_list(&mut r));
        check.list(&mut r, pair, &list);
    }
    check.listed();
    let Check { calls, accepted, differences, .. } = check;
    println!("m3ua: {count} messages, {accepted} accepted, {count} lists, {calls} calls, {differences} differences");
    differences == 0
}
