//! A capture of M3UA messages and their settled forms, and what tshark shows of them: of a message the same as of its form, and
//! of both what the plain reading says.

use super::made::{self, List};
use super::plain::{self, Parameter, PAIRS, PROTOCOL_DATA};
use crate::lent::shown;
use crate::messages::{length, parameter};
use crate::pcap;
use crate::random::{Group, Random};
use crate::screen::kinds::listed;
use std::collections::BTreeMap;
use std::io::BufRead;

/// The link type of captures whose packets name their dissector (LINKTYPE_WIRESHARK_UPPER_PDU).
const NAMED: u32 = 252;
/// With so many messages or more, each kind must be met.
const MANY: u64 = 2_000;

const RESERVED: &str = "m3ua.reserved";
const LENGTH: &str = "m3ua.message_length";
const PADDING: &str = "m3ua.parameter_padding";
/// What tshark shows of trailing octets.
const MALFORMED: &str = "_ws.malformed";
/// The fields in which a message and its form differ.
const LEFT_OUT: [&str; 4] = [RESERVED, LENGTH, PADDING, MALFORMED];
/// The fields that the plain reading tells as numbers, and those that it tells as octets.
const NUMBERS: [&str; 11] = [
    "m3ua.version",
    "m3ua.message_class",
    "m3ua.message_type",
    "m3ua.parameter_tag",
    "m3ua.parameter_length",
    "m3ua.protocol_data_opc",
    "m3ua.protocol_data_dpc",
    "m3ua.protocol_data_si",
    "m3ua.protocol_data_ni",
    "m3ua.protocol_data_mp",
    "m3ua.protocol_data_sls",
];
const VALUES: &str = "m3ua.parameter_value";
const PAYLOADS: &str = "data.data";

/// The fields that the plain reading tells.
fn told() -> Vec<&'static str> {
    [&NUMBERS[..], &[VALUES, PAYLOADS]].concat()
}

/// How the value of a parameter is laid out that tshark knows (RFC 4666, 3.2 to 3.8). Of a value that is shorter than its layout
/// tshark shows the padding as well: such values are not in the capture.
enum Layout {
    /// Four octets, once or several times.
    Four,
    Fours,
    Text,
    Octets,
    /// Some of the parameters with these tags.
    Parameters(&'static [u16]),
}

/// The tags that tshark knows but for Protocol Data, and their layouts.
const KNOWN: [(u16, Layout); 23] = [
    (0x0004, Layout::Text),
    (0x0006, Layout::Fours),
    (0x0007, Layout::Octets),
    (0x0009, Layout::Octets),
    (0x000B, Layout::Four),
    (0x000C, Layout::Four),
    (0x000D, Layout::Four),
    (0x0011, Layout::Four),
    (0x0012, Layout::Fours),
    (0x0013, Layout::Four),
    (0x0200, Layout::Four),
    (0x0204, Layout::Four),
    (0x0205, Layout::Four),
    (0x0206, Layout::Four),
    (0x0207, Layout::Parameters(&[0x0006, 0x000B, 0x0200, 0x020A, 0x020B, 0x020C, 0x020E])),
    (0x0208, Layout::Parameters(&[0x0006, 0x020A, 0x0212])),
    (0x0209, Layout::Parameters(&[0x0006, 0x0213])),
    (0x020A, Layout::Four),
    (0x020B, Layout::Four),
    (0x020C, Layout::Octets),
    (0x020E, Layout::Fours),
    (0x0212, Layout::Four),
    (0x0213, Layout::Four),
];
/// Tags that it does not know.
const UNKNOWN: [u16; 8] = [0x0000, 0x0101, 0x0102, 0x0103, 0x010B, 0x1210, 0x8210, 0xFFFF];

fn layout(tag: u16) -> Option<&'static Layout> {
    KNOWN.iter().find(|known| known.0 == tag).map(|known| &known.1)
}

fn value(r: &mut Random, tag: u16) -> Vec<u8> {
    let n = length(r);
    match layout(tag) {
        _ if tag == PROTOCOL_DATA => made::protocol_data(r),
        Some(Layout::Four) => r.octets(4),
        Some(Layout::Fours) => {
            let times = 1 + r.below(3);
            r.octets(4 * times)
        }
        Some(Layout::Text) => (0..n).map(|_| b' ' + r.below(95) as u8).collect(),
        Some(Layout::Octets) | None => r.octets(n),
        Some(Layout::Parameters(tags)) => {
            let mut out = Vec::new();
            for tag in *tags {
                if r.once_in(2) {
                    let value = value(r, *tag);
                    out.extend(parameter(r, *tag, &value, false));
                }
            }
            out
        }
    }
}

fn tag(r: &mut Random) -> u16 {
    match r.below(6) {
        0 | 1 => PROTOCOL_DATA,
        2 | 3 => KNOWN[r.below(KNOWN.len())].0,
        4 => r.pick(&UNKNOWN),
        _ => 0x0400 | r.next() as u16,
    }
}

/// A message in which what means nothing is anything.
fn message(r: &mut Random) -> Vec<u8> {
    let (class, msg_type) = made::pair(r);
    let mut list = List::new();
    for _ in 0..r.below(7) {
        let tag = tag(r);
        list.push((tag, value(r, tag)));
    }
    made::dirty(r, class, msg_type, &made::lent(&list))
}

fn messages(count: u64, seed: u64) -> impl Iterator<Item = Vec<u8>> {
    (0..count).map(move |i| message(&mut Random::nth(Group::M3uaCapture, seed, i)))
}

/// A packet that names the dissector `m3ua`: two options, each with its tag and length, the name under 12 and the end under 0; then
/// the message.
fn packet(message: &[u8]) -> Vec<u8> {
    let mut out = vec![0, 12, 0, 4];
    out.extend(b"m3ua");
    out.extend([0; 4]);
    out.extend(message);
    out
}

/// Writes a capture of so many messages, and the form of each behind it.
pub fn capture(file: &str, count: u64, seed: u64) -> bool {
    let packets = messages(count, seed).flat_map(|message| {
        let form = navrost::m3ua::settle_vec(&message).unwrap_or_default();
        [packet(&message), packet(&form)]
    });
    pcap::write(file, NAMED, packets)
}

/// Parameters, each with those that its value is made of behind it.
fn all<'a>(parameters: &[Parameter<'a>]) -> Vec<Parameter<'a>> {
    let mut out = Vec::new();
    for p in parameters {
        out.push(*p);
        if let Some(Layout::Parameters(_)) = layout(p.tag) {
            out.extend(all(&plain::walk(p.value, 0).0));
        }
    }
    out
}

/// What a field that the plain reading tells shows of a message, in wire order: numbers, or octets as text.
#[derive(Debug, PartialEq, Eq)]
enum Shown {
    Numbers(Vec<u64>),
    Octets(Vec<String>),
}

/// What the plain reading says of a message, by field.
fn says(message: &plain::Message<'_>) -> BTreeMap<&'static str, Shown> {
    let parameters = all(&message.parameters);
    let data: Vec<plain::ProtocolData<'_>> = parameters
        .iter()
        .filter(|p| p.tag == PROTOCOL_DATA)
        .map(|p| plain::protocol_data(p.value).expect("it has 12 octets"))
        .collect();
    let of = |number: fn(&plain::ProtocolData<'_>) -> u64| data.iter().map(number).collect::<Vec<u64>>();
    let numbers = [
        vec![1],
        vec![message.class.into()],
        vec![message.msg_type.into()],
        parameters.iter().map(|p| p.tag.into()).collect(),
        parameters.iter().map(|p| 4 + p.value.len() as u64).collect(),
        of(|data| data.originating.into()),
        of(|data| data.destination.into()),
        of(|data| data.service_indicator.into()),
        of(|data| data.network_indicator.into()),
        of(|data| data.priority.into()),
        of(|data| data.selection.into()),
    ];
    let unknown = parameters.iter().filter(|p| p.tag != PROTOCOL_DATA && layout(p.tag).is_none()).map(|p| p.value);
    let text = |octets: &[u8]| octets.iter().map(|b| format!("{b:02x}")).collect::<String>();
    let texts = |all: Vec<&[u8]>| Shown::Octets(all.into_iter().filter(|value| !value.is_empty()).map(text).collect());
    let mut says: BTreeMap<_, _> = NUMBERS.into_iter().zip(numbers.map(Shown::Numbers)).collect();
    says.insert(VALUES, texts(unknown.collect()));
    says.insert(PAYLOADS, texts(data.iter().map(|data| data.payload).collect()));
    says
}

/// What tshark printed of a field, in the kind of what is expected. For no octets it prints nothing, or that they are missing.
fn parsed(text: &str, like: &Shown) -> Option<Shown> {
    let words = || text.split(',').filter(|word| !word.is_empty() && *word != "<MISSING>");
    match like {
        Shown::Numbers(_) => words().map(pcap::number).collect::<Option<_>>().map(Shown::Numbers),
        Shown::Octets(_) => Some(Shown::Octets(words().map(String::from).collect())),
    }
}

/// Whether a field that is left out of the comparison is that of a settled form of so many octets.
fn is_settled(name: &str, text: &str, octets: usize) -> bool {
    match name {
        RESERVED => pcap::number(text) == Some(0),
        LENGTH => pcap::number(text) == Some(octets as u64),
        PADDING => text.chars().all(|c| matches!(c, '0' | ',')),
        _ => text.is_empty(),
    }
}

/// What was met, and what differed.
#[derive(Default)]
struct Check {
    differences: u64,
    met: BTreeMap<(&'static str, String), u64>,
}

const SHOWN: &str = "shown";
const TAGS: &str = "tags";
const TYPES: &str = "class and type";
const OTHERWISE: &str = "otherwise of the form";

impl Check {
    fn holds(&mut self, right: bool, what: impl FnOnce() -> String) {
        if !right {
            self.differences += 1;
            if self.differences <= 5 {
                println!("dissect, M3UA: {}", what());
            }
        }
    }

    fn meet(&mut self, group: &'static str, kind: String) {
        *self.met.entry((group, kind)).or_default() += 1;
    }

    /// The lines of a message and of its form, field by field.
    fn pair(&mut self, names: &[&str], octets: &[u8], [of_message, of_form]: [&str; 2]) {
        let message = plain::read(octets).expect("it is accepted");
        let (says, form) = (says(&message), plain::form(octets).map_or(0, |form| form.len()));
        let (of_message, of_form): (Vec<&str>, Vec<&str>) = (of_message.split('\t').collect(), of_form.split('\t').collect());
        self.holds([of_message.len(), of_form.len()] == [names.len(); 2], || format!("other fields of {}", shown(octets)));
        for ((name, one), other) in names.iter().zip(&of_message).zip(&of_form) {
            if LEFT_OUT.contains(name) {
                if one != other {
                    self.meet(OTHERWISE, name.to_string());
                }
                self.holds(is_settled(name, other, form), || format!("{name} of a form: {other}: {}", shown(octets)));
                continue;
            }
            self.holds(one == other, || format!("{name}: {one} and of its form {other}: {}", shown(octets)));
            if let Some(says) = says.get(name) {
                let told = parsed(one, says);
                self.holds(told.as_ref() == Some(says), || format!("{name}: {told:?} instead of {says:?}: {}", shown(octets)));
            }
            if !one.is_empty() {
                self.meet(SHOWN, name.to_string());
            }
        }
        self.meet(TYPES, format!("{} {}", message.class, message.msg_type));
        for p in all(&message.parameters) {
            self.meet(TAGS, p.tag.to_string());
        }
    }
}

/// Compares what tshark printed of such a capture, on standard input: the names of the fields, then a line for each message and
/// one for its form, separated by tabs. True where both show the same, and what the plain reading says, and where, of many, every
/// kind was met.
pub fn dissected(count: u64, seed: u64) -> bool {
    let mut lines = std::io::stdin().lock().lines().map_while(Result::ok);
    let names = lines.next().unwrap_or_default();
    let names: Vec<&str> = names.split('\t').collect();
    let mut check = Check::default();
    for name in told().iter().chain(&LEFT_OUT) {
        check.holds(names.contains(name), || format!("no field {name}"));
    }
    for octets in messages(count, seed) {
        let two = [lines.next().unwrap_or_default(), lines.next().unwrap_or_default()];
        check.pair(&names, &octets, [&two[0], &two[1]]);
    }
    check.differences += lines.count() as u64;
    let mut fields: Vec<String> = told().into_iter().map(String::from).collect();
    let others = check.met.keys().filter(|(group, name)| *group == SHOWN && !told().contains(&&**name));
    fields.extend(others.map(|(_, name)| name.clone()));
    let tags = KNOWN.iter().map(|known| known.0).chain(UNKNOWN).chain([PROTOCOL_DATA]).map(|tag| tag.to_string()).collect();
    let types = PAIRS.iter().map(|(class, msg_type)| format!("{class} {msg_type}")).collect();
    let left_out = LEFT_OUT.map(String::from).to_vec();
    let groups = vec![(SHOWN, fields), (TYPES, types), (TAGS, tags), (OTHERWISE, left_out)];
    check.differences += listed("dissect, M3UA", groups, &check.met, count >= MANY);
    println!("dissect, M3UA: {count} messages and their forms, {} differences", check.differences);
    check.differences == 0
}
