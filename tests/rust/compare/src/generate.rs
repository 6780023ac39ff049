//! Random calls for crates/replay.

use crate::calls::{answer, screened, Call, BETWEEN, SCREENED};
use crate::contexts::made;
use crate::messages;
use crate::oracle::length_with_counters;
use crate::random::Random;

/// The calls, and the refusals that each can give. A call's place chooses what is recorded of it, so a new one goes last.
pub const CALLS: [(&str, &[u64]); 63] = [
    ("decode_gt_digits", &[12]),
    ("encode_gt_digits", &[9, 11, 14]),
    ("gt_digits_length", &[9, 11]),
    ("parameter_decode", &[1, 5, 6, 12]),
    ("parameter_encode", &[10, 14]),
    ("wire_length", &[10]),
    ("as_u32", &[12]),
    ("step", &[5, 6, 12]),
    ("decode_parameters", &[5, 6, 12, 13]),
    ("encode_parameters", &[10, 12, 14, 15]),
    ("parameters_length", &[10, 15]),
    ("find_parameter", &[15]),
    ("routing_indicator", &[8]),
    ("title_decode", &[1, 12]),
    ("title_encode", &[9, 11, 14]),
    ("e164", &[9, 11, 14]),
    ("address_decode", &[1, 5, 6, 8, 12, 13]),
    ("address_encode", &[9, 10, 11, 14, 15]),
    ("address_indicator", &[]),
    ("with_gt", &[9, 11, 14]),
    ("with_ssn_pc", &[14]),
    ("rewritten_length", &[1, 5, 6, 8, 9, 10, 12]),
    ("rewrite", &[1, 5, 6, 8, 9, 10, 12, 14]),
    ("class", &[3]),
    ("class_type", &[4]),
    ("header_decode", &[1, 2, 4, 12]),
    ("header_encode", &[14]),
    ("message_decode", &[1, 2, 4, 5, 6, 12, 13]),
    ("message_encode", &[10, 12, 14, 15]),
    ("pack_affected_point_codes", &[10, 14]),
    ("unpack_affected_point_codes", &[12, 13]),
    ("routing_context", &[15]),
    ("sequence_control", &[15]),
    ("protocol_class", &[15]),
    ("ss7_hop_count", &[15]),
    ("sccp_cause", &[15]),
    ("data", &[15]),
    ("affected_point_codes", &[13, 15]),
    ("source_address", &[1, 5, 6, 7, 8, 12, 13, 15]),
    ("destination_address", &[1, 5, 6, 7, 8, 12, 13, 15]),
    ("cldt", &[9, 10, 11, 14, 15]),
    ("cldr", &[9, 10, 11, 14, 15]),
    ("asp_up", &[10, 14]),
    ("asp_up_ack", &[10, 14]),
    ("asp_down", &[10, 14]),
    ("asp_down_ack", &[10, 14]),
    ("asp_active", &[14]),
    ("asp_active_ack", &[14]),
    ("asp_inactive", &[14]),
    ("asp_inactive_ack", &[14]),
    ("heartbeat", &[10, 14]),
    ("heartbeat_ack", &[10, 14]),
    ("error", &[10, 14]),
    ("notify", &[14]),
    ("duna", &[10, 14]),
    ("dava", &[10, 14]),
    ("daud", &[10, 14]),
    ("settle", &[1, 2, 4, 5, 6, 8, 9, 10, 12, 14]),
    ("settled_length", &[1, 2, 4, 5, 6, 8, 9, 10, 12]),
    ("read", &[1, 2, 4, 5, 6, 8, 12, 14]),
    ("encode", &[4, 10, 12, 14, 15]),
    ("screen", &[1, 5, 6, 7, 8, 12, 13, 15]),
    ("contexts_in", &[15]),
];

/// How many octets there may be: 1 in so many inputs is at a bound of document 01.
#[derive(Clone, Copy)]
pub struct Sizes {
    pub large_once_in: usize,
}

/// The number refused; 0 where the call was accepted.
fn refused(name: &str, answer: &str) -> u64 {
    let mut words = answer.split(' ');
    let first = words.next().unwrap_or("");
    match name {
        "read" | "encode" => first.parse().unwrap_or(0),
        _ if first == "refused" => words.next().and_then(|n| n.parse().ok()).unwrap_or(0),
        _ => 0,
    }
}

/// The numbers refused, of which `screen` can have several; 0 alone where the call was accepted.
pub fn refusals(name: &str, answer: &str) -> Vec<u64> {
    if name != "screen" {
        return vec![refused(name, answer)];
    }
    let numbers: Vec<u64> = answer.split(BETWEEN).map(|part| refused(name, part)).filter(|n| *n != 0).collect();
    if numbers.is_empty() {
        vec![0]
    } else {
        numbers
    }
}

/// A call under construction.
struct Maker<'a> {
    r: &'a mut Random,
    sizes: Sizes,
    call: Call,
}

impl Maker<'_> {
    fn number(&mut self, n: u64) {
        self.call.numbers.push(n);
    }
    fn any(&mut self, bits: u32) {
        let n = match self.r.below(4) {
            0 => self.r.below(4) as u64,
            1 => u64::MAX,
            _ => self.r.next(),
        };
        self.number(n & (u64::MAX >> (64 - bits)));
    }
    fn flag(&mut self) {
        let n = self.r.below(2) as u64;
        self.number(n);
    }
    fn some(&mut self, bits: u32) {
        self.flag();
        self.any(bits);
    }
    fn octets(&mut self, octets: Vec<u8>) {
        self.call.octets.push(octets);
    }
    fn large(&mut self) -> bool {
        self.r.once_in(self.sizes.large_once_in)
    }
    /// The length of a buffer, put right once the length needed is known.
    fn room(&mut self) {
        self.call.room = Some(self.call.numbers.len());
        self.number(0);
    }
    fn rooms(&mut self) {
        self.room();
        self.number(0);
        self.number(0);
    }
    /// Octets that may be over the bound.
    fn bounded(&mut self, octets: Vec<u8>) {
        let large = self.large();
        let octets = if large { vec![self.r.octet(); 1_048_576 + self.r.below(2)] } else { octets };
        self.octets(octets);
    }
    /// A value that may be over the bound of values.
    fn value(&mut self) {
        let large = self.large();
        let n = if large { 65_530 + self.r.below(3) } else { messages::length(self.r) };
        let value = if large { vec![0x61; n] } else { self.r.octets(n) };
        self.octets(value);
    }
    fn text(&mut self) {
        let large = self.large();
        let n = if large { 65_530 + self.r.below(3) } else { messages::length(self.r) };
        let text = if large { "t".repeat(n) } else { (0..n).map(|_| (32 + self.r.below(90)) as u8 as char).collect() };
        self.octets(text.into_bytes());
    }
    fn digit_string(&mut self, most: usize) -> Vec<u8> {
        let n = match self.r.below(8) {
            0 => most.saturating_sub(self.r.below(4)),
            1 => 0,
            _ => self.r.below(20),
        };
        let mut digits: Vec<u8> = (0..n).map(|_| self.r.pick(b"0123456789*#abcABC")).collect();
        if n > 0 && self.r.once_in(6) {
            let at = self.r.below(n);
            digits[at] = self.r.pick(b"?!d/:@`\0\x7F");
        }
        if n > 1 && self.r.once_in(20) {
            let at = self.r.below(n - 1);
            digits[at..at + 2].copy_from_slice("é".as_bytes());
        }
        digits
    }
    /// A title's numbers and digits; the count is that of the digits, or not. Any number of absent digits stands behind it.
    fn title(&mut self) {
        for _ in 0..4 {
            self.any(8);
        }
        let digits = self.digit_string(255);
        let count = match self.r.below(10) {
            0 => 254 + self.r.below(4) as u64,
            1 => self.r.below(256) as u64,
            2 if self.r.once_in(4) => u64::MAX,
            _ => digits.len() as u64,
        };
        self.number(count);
        self.any(64);
        self.octets(digits);
    }
    fn address(&mut self, others: u64) {
        let routing = self.r.below(5) as u64;
        self.number(routing);
        for _ in 0..3 {
            self.flag();
        }
        self.flag();
        self.title();
        self.some(32);
        self.some(8);
        self.number(others);
    }
    /// A table of records, the values and the count. Some reach outside.
    fn records(&mut self, list: Vec<(u16, Vec<u8>)>) -> (Vec<u64>, Vec<u8>, u64) {
        let (mut columns, values) = laid_out(self.r, &list);
        let mut count = list.len() as u64;
        match self.r.below(10) {
            0 if count > 0 => {
                let row = self.r.below(count as usize);
                let which = 1 + self.r.below(2);
                columns[which][row] = if self.r.once_in(2) { self.r.next() } else { values.len() as u64 + 1 };
            }
            1 => {
                let which = self.r.below(3);
                columns[which].pop();
            }
            2 => count += self.r.below(3) as u64,
            3 => count = self.r.below(count as usize + 1) as u64,
            4 if self.r.once_in(4) => count = u64::MAX,
            _ => {}
        }
        (lists(columns), values, count)
    }
    /// Parameters for a table; rarely with a value that is too long, or too many octets in all.
    fn list(&mut self, broken: bool) -> Vec<(u16, Vec<u8>)> {
        let mut list = messages::list(self.r, true, broken);
        if self.large() {
            let n = 65_530 + self.r.below(3);
            list.push((messages::tag(self.r), vec![0x62; n]));
        }
        list
    }
    /// A table whose rows all show one long value.
    fn heavy(&mut self) -> (Vec<u64>, Vec<u8>, u64) {
        let count = 15 + self.r.below(3) as u64;
        let mut numbers = vec![count];
        for n in [0x010B, 0, 65_528] {
            numbers.extend(std::iter::repeat(n).take(count as usize));
            numbers.push(count);
        }
        numbers.pop();
        (numbers, vec![0x63; 65_531], count)
    }
    fn table(&mut self) -> (Vec<u64>, Vec<u8>, u64) {
        if self.large() {
            return self.heavy();
        }
        let list = self.list(true);
        self.records(list)
    }
    fn codes(&mut self) {
        if self.large() {
            let n = 16_381 + self.r.below(3) as u64;
            self.number(n);
            self.call.numbers.extend(vec![0xFF01_2345; n as usize]);
            return;
        }
        let n = self.r.below(6);
        self.number(n as u64);
        for _ in 0..n {
            self.any(32);
        }
    }
    fn make(&mut self, name: &str) {
        match name {
            "decode_gt_digits" => {
                let n = self.r.below(12);
                if self.r.once_in(3) {
                    let near = 2 * n + self.r.below(4);
                    self.number(near as u64);
                } else {
                    self.any(8);
                }
                let octets = self.r.octets(n);
                self.bounded(octets);
            }
            "encode_gt_digits" | "gt_digits_length" => {
                if name == "encode_gt_digits" {
                    self.room();
                }
                let most = 253 + self.r.below(5);
                let digits = self.digit_string(most);
                self.octets(digits);
            }
            "parameter_decode" | "step" => {
                if name == "step" {
                    let at = if self.r.once_in(8) { self.r.next() } else { 4 * self.r.below(8) as u64 };
                    self.number(at);
                }
                let octets = run(self.r);
                self.bounded(octets);
            }
            "parameter_encode" => {
                self.any(16);
                self.room();
                self.value();
            }
            "wire_length" => {
                self.any(16);
                let n = if self.r.once_in(4) { self.r.next() } else { 65_520 + self.r.below(16) as u64 };
                let n = if self.r.once_in(2) { n } else { self.r.below(40) as u64 };
                self.number(n);
            }
            "as_u32" => {
                let n = messages::length(self.r);
                let octets = self.r.octets(n);
                self.bounded(octets);
            }
            "decode_parameters" => {
                self.rooms();
                let octets = run(self.r);
                self.bounded(octets);
            }
            "encode_parameters" | "parameters_length" | "message_encode" => {
                let (table, values, count) = self.table();
                if name == "message_encode" {
                    let (class, msg_type) = messages::any_pair(self.r);
                    self.number(class.into());
                    self.number(msg_type.into());
                }
                self.number(count);
                if name != "parameters_length" {
                    self.room();
                }
                self.call.numbers.extend(table);
                self.octets(values);
            }
            "find_parameter" => {
                let list = self.list(true);
                let tag =
                    if self.r.once_in(3) || list.is_empty() { messages::tag(self.r) } else { list[self.r.below(list.len())].0 };
                let (table, values, count) = self.records(list);
                self.number(count);
                self.number(tag.into());
                self.call.numbers.extend(table);
                self.octets(values);
            }
            "routing_indicator" => {
                let n = if self.r.once_in(2) { self.r.below(8) as u64 } else { self.r.next() % 65_536 };
                self.number(n);
            }
            "title_decode" => {
                let short = self.r.once_in(4);
                let title = if short { messages::running_short(self.r, true, true) } else { messages::title(self.r, true) };
                let n = if self.r.once_in(5) { self.r.below(title.len() + 1) } else { title.len() };
                self.bounded(title[..n].to_vec());
            }
            "title_encode" => {
                self.title();
                self.room();
            }
            "e164" => {
                let digits = self.digit_string(255);
                let count = if self.r.once_in(6) { 250 + self.r.below(8) } else { digits.len() };
                self.number(count as u64);
                self.room();
                self.octets(digits);
            }
            "address_decode" | "rewritten_length" | "rewrite" => {
                match name {
                    "address_decode" => self.rooms(),
                    "rewrite" => {
                        self.any(16);
                        self.room();
                    }
                    _ => self.any(16),
                }
                let broken = self.r.once_in(2);
                if name != "address_decode" && self.large() {
                    let octets = messages::large_address(self.r);
                    return self.octets(octets);
                }
                let two = name == "address_decode" && self.r.once_in(3);
                let octets = if two { messages::two_titles(self.r, true) } else { messages::address(self.r, true, broken) };
                self.bounded(octets);
            }
            "address_encode" => {
                let (table, values, count) = self.table();
                self.address(count);
                self.room();
                self.call.numbers.extend(table);
                self.octets(values);
            }
            "address_indicator" => self.address(0),
            "with_gt" => {
                self.title();
                self.some(8);
                self.room();
            }
            "with_ssn_pc" => {
                self.any(8);
                self.any(32);
                self.room();
            }
            "class" => {
                let n = if self.r.once_in(2) { self.r.below(12) } else { self.r.below(256) };
                self.number(n as u64);
            }
            "class_type" => {
                let (class, msg_type) = messages::any_pair(self.r);
                self.number(class.into());
                self.number(msg_type.into());
            }
            "header_decode" | "message_decode" => {
                if name == "message_decode" {
                    self.rooms();
                }
                let octets = messages::message(self.r);
                self.bounded(octets);
            }
            "header_encode" => {
                self.any(8);
                let (class, msg_type) = messages::any_pair(self.r);
                self.number(class.into());
                self.number(msg_type.into());
                self.any(32);
                self.room();
            }
            "pack_affected_point_codes" => {
                self.room();
                self.codes();
            }
            "unpack_affected_point_codes" => {
                self.room();
                let n = self.r.below(24);
                let octets = self.r.octets(n);
                self.bounded(octets);
            }
            "settle" | "settled_length" | "read" => {
                if name != "settled_length" {
                    self.room();
                }
                let octets = if self.large() { messages::large(self.r) } else { messages::message(self.r) };
                self.octets(octets);
            }
            "encode" => {
                let (class, msg_type) = messages::any_pair(self.r);
                self.number(class.into());
                self.number(msg_type.into());
                self.room();
                let list = crate::archive::flat(self.r, self.sizes.large_once_in);
                self.octets(list);
            }
            _ => self.accessor_or_constructor(name),
        }
    }
    /// Up to two parameters with a tag, put anywhere into a list.
    fn put_some(&mut self, list: &mut Vec<(u16, Vec<u8>)>, tag: u16) {
        for _ in 0..self.r.below(3) {
            let broken = self.r.once_in(3);
            let two = matches!(tag, 0x0102 | 0x0103) && self.r.once_in(2);
            let value = if two { messages::two_titles(self.r, true) } else { messages::value(self.r, tag, true, broken) };
            let at = self.r.below(list.len() + 1);
            list.insert(at, (tag, value));
        }
    }
    fn screen(&mut self) {
        let broken = self.r.once_in(3);
        let mut list = self.list(broken);
        for name in SCREENED {
            self.put_some(&mut list, wanted(name));
        }
        if self.large() {
            list.insert(0, (0x0102 + self.r.below(2) as u16, vec![0; 1_048_576 + self.r.below(2)]));
        }
        let (table, values, count) = self.records(list);
        self.number(count);
        self.rooms();
        self.rooms();
        self.call.numbers.extend(table);
        self.octets(values);
    }
    fn accessor_or_constructor(&mut self, name: &str) {
        match name {
            "routing_context"
            | "sequence_control"
            | "protocol_class"
            | "ss7_hop_count"
            | "sccp_cause"
            | "data"
            | "affected_point_codes"
            | "source_address"
            | "destination_address" => {
                let broken = self.r.once_in(3);
                let mut list = self.list(broken);
                let tag = wanted(name);
                self.put_some(&mut list, tag);
                if name.ends_with("_address") && self.large() {
                    list.insert(0, (tag, vec![0; 1_048_576 + self.r.below(2)]));
                }
                let (table, values, count) = self.records(list);
                self.number(count);
                match name {
                    "affected_point_codes" => self.room(),
                    "source_address" | "destination_address" => self.rooms(),
                    _ => {}
                }
                self.call.numbers.extend(table);
                self.octets(values);
            }
            "screen" => self.screen(),
            "contexts_in" => self.call = made::call(self.r),
            "cldt" | "cldr" => self.connectionless(name),
            "asp_up" | "asp_up_ack" | "asp_down" | "asp_down_ack" => {
                if name == "asp_up" {
                    self.some(32);
                }
                self.flag();
                self.room();
                self.text();
            }
            "asp_active" | "asp_active_ack" => {
                self.some(32);
                self.some(32);
                self.room();
            }
            "asp_inactive" | "asp_inactive_ack" => {
                self.some(32);
                self.room();
            }
            "heartbeat" | "heartbeat_ack" => {
                self.flag();
                self.room();
                self.value();
            }
            "error" => {
                self.any(32);
                self.some(32);
                self.flag();
                self.room();
                self.value();
            }
            "notify" => {
                self.any(32);
                self.some(32);
                self.some(32);
                self.room();
            }
            "duna" | "dava" | "daud" => {
                self.some(32);
                self.room();
                self.codes();
            }
            _ => unreachable!("{name}"),
        }
    }
    fn connectionless(&mut self, name: &str) {
        self.any(32);
        self.any(8);
        if name == "cldt" {
            self.any(32);
            self.some(8);
        } else {
            self.any(8);
            self.flag();
        }
        self.room();
        let tables = [self.few(), self.few()];
        for (_, _, count) in &tables {
            self.address(*count);
        }
        for (table, values, _) in tables {
            self.call.numbers.extend(table);
            self.octets(values);
        }
        self.value();
    }
    /// The others of an address.
    fn few(&mut self) -> (Vec<u64>, Vec<u8>, u64) {
        if self.large() {
            return self.heavy();
        }
        let mut list = self.list(false);
        list.truncate(2);
        self.records(list)
    }
}

/// Records laid out in values: the columns and the values.
pub fn laid_out(r: &mut Random, list: &[(u16, Vec<u8>)]) -> ([Vec<u64>; 3], Vec<u8>) {
    let mut values = Vec::new();
    let mut columns = [Vec::new(), Vec::new(), Vec::new()];
    for (tag, value) in list {
        let gap = r.below(3);
        values.extend(r.octets(gap));
        columns[0].push(u64::from(*tag));
        columns[1].push(values.len() as u64);
        columns[2].push(value.len() as u64);
        values.extend(value);
    }
    (columns, values)
}

/// Columns as the numbers of a call: each as its count and its numbers.
pub fn lists(columns: [Vec<u64>; 3]) -> Vec<u64> {
    columns.into_iter().flat_map(|c| std::iter::once(c.len() as u64).chain(c)).collect()
}

/// The tag that an accessor looks for.
pub fn wanted(name: &str) -> u16 {
    match name {
        "routing_context" => 0x0006,
        "sequence_control" => 0x0116,
        "protocol_class" => 0x0115,
        "ss7_hop_count" => 0x0101,
        "sccp_cause" => 0x0106,
        "data" => 0x010B,
        "affected_point_codes" => 0x0012,
        "source_address" => 0x0102,
        _ => 0x0103,
    }
}

/// A run of parameters, whole or broken.
fn run(r: &mut Random) -> Vec<u8> {
    let mut out: Vec<u8> =
        messages::list(r, true, true).iter().flat_map(|(tag, value)| messages::parameter(r, *tag, value, true)).collect();
    match r.below(6) {
        0 => out.truncate(r.below(out.len() + 1)),
        1 if out.len() > 3 => out[3] = r.octet(),
        2 => out.extend(r.octets(3)),
        3 => {
            let at = 4 * r.below(out.len() / 4 + 1);
            out.splice(at..at, [0, 4, 0, r.below(5) as u8]);
        }
        _ => {}
    }
    out
}

/// A random call of a name.
pub fn call(r: &mut Random, name: &str, sizes: Sizes) -> Call {
    let mut maker = Maker { r, sizes, call: Call { name: name.into(), ..Call::default() } };
    maker.make(name);
    let mut call = maker.call;
    match call.room {
        Some(_) if name == "screen" => fit_screen(r, &mut call),
        Some(at) => fit(r, &mut call, at),
        None => {}
    }
    call
}

/// Chooses what is lent: just enough, one less, none, or some more.
fn fit(r: &mut Random, call: &mut Call, at: usize) {
    let table = matches!(
        call.name.as_str(),
        "decode_parameters" | "address_decode" | "message_decode" | "source_address" | "destination_address"
    );
    let codes = matches!(call.name.as_str(), "affected_point_codes" | "unpack_affected_point_codes");
    let most = if table {
        64
    } else if codes {
        20_000
    } else {
        1_200_000
    };
    let needed = needed(call, at, table);
    for place in at..at + if table { 3 } else { 1 } {
        let n = match r.below(8) {
            0 => needed.saturating_sub(1),
            1 => 0,
            2 => needed + r.below(12),
            _ => needed,
        };
        call.numbers[place] = n.min(most) as u64;
    }
}

/// Chooses what `screen` is lent for each address, as for the accessor of that address.
pub fn fit_screen(r: &mut Random, call: &mut Call) {
    for (i, mut own) in screened(call).into_iter().skip(5).enumerate() {
        fit(r, &mut own, 1);
        call.numbers[3 * i + 1..3 * i + 4].copy_from_slice(&own.numbers[1..4]);
    }
}

/// What a call needs lent: what it refuses nothing as 13 or 14 for. `settle` is lent room for the hop counters too, so that one
/// which is left out but counted, or written behind the form, is seen.
fn needed(call: &Call, at: usize, table: bool) -> usize {
    if call.name == "settle" {
        return length_with_counters(&call.octets[0]).unwrap_or(0);
    }
    let mut asked = call.clone();
    for place in at..at + if table { 3 } else { 1 } {
        asked.numbers[place] = 0;
    }
    let answer = answer(&asked);
    let words: Vec<&str> = answer.split(' ').collect();
    match words.as_slice() {
        ["refused", "13" | "14", n, ..] => n.parse().unwrap_or(0),
        ["14", n, ..] if matches!(call.name.as_str(), "read" | "encode") => n.parse().unwrap_or(0),
        _ => 0,
    }
}
