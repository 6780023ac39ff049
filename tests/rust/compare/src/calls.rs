//! The calls of crates/replay (docs/CALLS.md): how a line is written, and what the Rust answers to it. The number of absent digits,
//! which the Rust does not tell, is that of a plain reading.

use crate::absent;
use crate::oracle::*;
use std::fmt::Write;
use sua::address::{GlobalTitle, RoutingIndicator, SuaAddress};
use sua::header::{CommonHeader, MessageClass, MessageType};
use sua::message::{pack_affected_point_codes, unpack_affected_point_codes, SuaMessage};
use sua::parameter::{decode_parameters, find_parameter, tags, Parameter};

/// What every place of a lent table holds before a call.
pub const HELD: u64 = 60_000;
/// What every octet of a lent buffer holds before a call.
pub const HELD_OCTET: u8 = 0xEE;

/// A call: its name, its numbers and its octet strings.
#[derive(Debug, Clone, Default)]
pub struct Call {
    pub name: String,
    pub numbers: Vec<u64>,
    pub octets: Vec<Vec<u8>>,
    /// Which number is the length of the lent buffer, or the first of a lent table's three lengths.
    pub room: Option<usize>,
}

/// Runs of equal elements, from the front.
fn runs<T: PartialEq + Copy>(list: &[T]) -> Vec<(T, usize)> {
    let mut runs: Vec<(T, usize)> = Vec::new();
    for &element in list {
        match runs.last_mut() {
            Some((last, count)) if *last == element => *count += 1,
            _ => runs.push((element, 1)),
        }
    }
    runs
}

/// Octets as a word: long runs as an octet and a count.
pub fn word(octets: &[u8]) -> String {
    let mut text = String::from("x");
    let mut behind_run = false;
    for (octet, count) in runs(octets) {
        let long = count >= 8;
        if behind_run || (long && text.len() > 1) {
            text.push('+');
        }
        if long {
            write!(text, "{octet:02x}*{count}").unwrap();
        } else {
            for _ in 0..count {
                write!(text, "{octet:02x}").unwrap();
            }
        }
        behind_run = long;
    }
    text
}

impl Call {
    /// The call as a line, without its line feed.
    pub fn line(&self) -> String {
        let mut line = self.name.clone();
        for (n, count) in runs(&self.numbers) {
            if count >= 8 {
                write!(line, " {n}*{count}").unwrap();
            } else {
                for _ in 0..count {
                    write!(line, " {n}").unwrap();
                }
            }
        }
        for octets in &self.octets {
            line.push(' ');
            line.push_str(&word(octets));
        }
        line
    }

    /// The call that a line stands for. A word `beyond` in front is passed over.
    pub fn parse(line: &str) -> Call {
        let mut call = Call::default();
        for part in line.split(' ').filter(|w| *w != "beyond") {
            if call.name.is_empty() {
                call.name = part.to_string();
            } else if let Some(pieces) = part.strip_prefix('x') {
                call.octets.push(pieces.split('+').flat_map(piece).collect());
            } else {
                let (n, count) = part.split_once('*').unwrap_or((part, "1"));
                let n: u64 = n.parse().expect("a number");
                call.numbers.extend(std::iter::repeat(n).take(count.parse().expect("a count")));
            }
        }
        call
    }
}

/// The accessors whose answers `screen` gives, in its order.
pub const SCREENED: [&str; 7] = [
    "routing_context",
    "protocol_class",
    "sequence_control",
    "ss7_hop_count",
    "sccp_cause",
    "source_address",
    "destination_address",
];

/// What stands between their answers.
pub const BETWEEN: &str = " ; ";

/// The calls of those accessors over the table of a call of `screen`; an address's is lent what `screen` is lent for it.
pub fn screened(call: &Call) -> Vec<Call> {
    let (count, rooms, table) = (&call.numbers[..1], &call.numbers[1..7], &call.numbers[7..]);
    let own = |name: &&str| {
        let lent = match *name {
            "source_address" => &rooms[..3],
            "destination_address" => &rooms[3..],
            _ => &[],
        };
        Call { name: name.to_string(), numbers: [count, lent, table].concat(), octets: call.octets.clone(), room: None }
    };
    SCREENED.iter().map(own).collect()
}

fn piece(text: &str) -> Vec<u8> {
    let (digits, count) = text.split_once('*').unwrap_or((text, "1"));
    let octets: Vec<u8> = (0..digits.len() / 2)
        .map(|i| u8::from_str_radix(&digits[2 * i..2 * i + 2], 16).expect("two hexadecimal digits"))
        .collect();
    octets.repeat(count.parse().expect("a count"))
}

/// Takes a call's numbers and octet strings in order.
struct Taken<'a> {
    numbers: &'a [u64],
    octets: &'a [Vec<u8>],
}

impl<'a> Taken<'a> {
    fn number(&mut self) -> u64 {
        match self.numbers.split_first() {
            Some((first, rest)) => {
                self.numbers = rest;
                *first
            }
            None => 0,
        }
    }
    fn size(&mut self) -> usize {
        self.number() as usize
    }
    fn octet(&mut self) -> u8 {
        self.number() as u8
    }
    fn short(&mut self) -> u16 {
        self.number() as u16
    }
    fn word(&mut self) -> u32 {
        self.number() as u32
    }
    fn flag(&mut self) -> bool {
        self.number() != 0
    }
    fn some(&mut self) -> Option<u32> {
        let there = self.flag();
        let n = self.word();
        there.then_some(n)
    }
    fn bytes(&mut self) -> &'a [u8] {
        match self.octets.split_first() {
            Some((first, rest)) => {
                self.octets = rest;
                first
            }
            None => &[],
        }
    }
    fn list(&mut self) -> Vec<u64> {
        let count = self.size();
        (0..count).map(|_| self.number()).collect()
    }
    fn codes(&mut self) -> Vec<u32> {
        self.list().into_iter().map(|n| n as u32).collect()
    }
    fn table(&mut self) -> Table {
        Table { tags: self.list(), starts: self.list(), lengths: self.list() }
    }
    fn rooms(&mut self) -> Columns {
        Columns([(); 3].map(|()| vec![HELD; self.size()]))
    }
    fn buffer(&mut self) -> Vec<u8> {
        vec![HELD_OCTET; self.size()]
    }
    /// A title's numbers and its digits. The Rust has no number of absent digits, and writing ignores it.
    fn title(&mut self) -> Title {
        let [gti, tt, np, noa] = [(); 4].map(|()| self.octet());
        let (count, _absent) = (self.number(), self.number());
        Title { gti, tt, np, noa, count, digits: array(self.bytes()) }
    }
    /// An address's numbers and its digits.
    fn address(&mut self) -> Address {
        let routing = RoutingIndicator::from_u16((self.number() % 5) as u16).expect("below 5");
        let [gt, pc, ssn] = [(); 3].map(|()| self.flag());
        let has_title = self.flag();
        let title = self.title();
        let code = self.some();
        let sub = self.some().map(|n| n as u8);
        let count = self.number();
        Address { routing, include: [gt, pc, ssn], title: has_title.then_some(title), code, sub, count }
    }
}

/// 255 octets of digits, zeros behind those given.
fn array(digits: &[u8]) -> Vec<u8> {
    let mut all = digits.to_vec();
    all.resize(255, 0);
    all
}

/// The columns of a table that is given.
struct Table {
    tags: Vec<u64>,
    starts: Vec<u64>,
    lengths: Vec<u64>,
}

impl Table {
    /// The first records over a slice of values, each with its place: 15.
    fn records(&self, values: &[u8], count: u64) -> Answer<Vec<(Parameter, Place)>> {
        let rows = self.tags.len().min(self.starts.len()).min(self.lengths.len()) as u64;
        if count > rows {
            return refuse(15, &[]);
        }
        (0..count as usize)
            .map(|i| {
                let (tag, start, length) = (self.tags[i] as u16, self.starts[i] as usize, self.lengths[i] as usize);
                match values.get(start..).and_then(|from| from.get(..length)) {
                    Some(value) => Ok((Parameter::new(tag, value.to_vec()), (tag, start, length))),
                    None => refuse(15, &[]),
                }
            })
            .collect()
    }

    fn parameters(&self, values: &[u8], count: u64) -> Answer<Vec<Parameter>> {
        Ok(self.records(values, count)?.into_iter().map(|(p, _)| p).collect())
    }
}

/// The columns of a lent table.
struct Columns([Vec<u64>; 3]);

impl Columns {
    /// Stores places: their number, or 13.
    fn store(&mut self, places: Answer<Vec<Place>>) -> Answer<usize> {
        let places = places?;
        if self.0.iter().any(|column| column.len() < places.len()) {
            return refuse(13, &[places.len() as u64]);
        }
        for (i, (tag, start, length)) in places.iter().enumerate() {
            self.0[0][i] = u64::from(*tag);
            self.0[1][i] = *start as u64;
            self.0[2][i] = *length as u64;
        }
        Ok(places.len())
    }

    fn words(&self) -> String {
        format!("{} {} {}", joined('t', &self.0[0]), joined('s', &self.0[1]), joined('l', &self.0[2]))
    }
}

fn joined(letter: char, numbers: &[u64]) -> String {
    let numbers: Vec<String> = numbers.iter().map(u64::to_string).collect();
    format!("{letter}{}", numbers.join(","))
}

struct Title {
    gti: u8,
    tt: u8,
    np: u8,
    noa: u8,
    count: u64,
    digits: Vec<u8>,
}

impl Title {
    /// The Rust's title: 11; 9 where the digits are no text.
    fn given(&self) -> Answer<GlobalTitle> {
        if self.count > 255 {
            return refuse(11, &[self.count]);
        }
        let digits = text(&self.digits[..self.count as usize])?;
        Ok(GlobalTitle::new(self.gti, self.tt, self.np, self.noa, digits))
    }
}

struct Address {
    routing: RoutingIndicator,
    include: [bool; 3],
    title: Option<Title>,
    code: Option<u32>,
    sub: Option<u8>,
    count: u64,
}

impl Address {
    /// The Rust's address: 15, 11; 9 where the digits are no text.
    fn given(&self, values: &[u8], table: &Table) -> Answer<SuaAddress> {
        let other = table.parameters(values, self.count)?;
        let global_title = self.title.as_ref().map(Title::given).transpose()?;
        let [include_gt, include_pc, include_ssn] = self.include;
        Ok(SuaAddress {
            routing_indicator: self.routing,
            include_gt,
            include_pc,
            include_ssn,
            global_title,
            point_code: self.code,
            ssn: self.sub,
            other,
        })
    }

    fn write(&self, tag: u16, values: &[u8], table: &Table) -> Answer<(SuaAddress, Vec<u8>)> {
        let address = self.given(values, table)?;
        let octets = write_address(tag, &address)?;
        Ok((address, octets))
    }
}

fn refused(r: &Refused) -> String {
    let mut text = format!("refused {}", r.number);
    for value in &r.values {
        write!(text, " {value}").unwrap();
    }
    text
}

/// An answer of several numbers; one of none is `none`.
fn numbers<const N: usize>(answer: Answer<Option<[u64; N]>>) -> String {
    match answer {
        Ok(Some(numbers)) => numbers.iter().fold(String::from("ok"), |text, n| format!("{text} {n}")),
        Ok(None) => "none".into(),
        Err(r) => refused(&r),
    }
}

fn verdict(answer: &Answer<usize>) -> String {
    match answer {
        Ok(n) => format!("ok {n}"),
        Err(r) => refused(r),
    }
}

/// A writer's answer beside its buffer.
fn written(octets: Answer<Vec<u8>>, mut buffer: Vec<u8>) -> String {
    let answer = deliver(octets, &mut buffer);
    format!("{} {}", verdict(&answer), word(&buffer))
}

/// A title that was read, and how many of its digits are absent.
fn titled(title: Option<&GlobalTitle>, absent: usize) -> String {
    match title {
        Some(t) => {
            let digits = t.digits.as_bytes();
            let [a, b, c, d] = [t.gti, t.translation_type, t.numbering_plan, t.nature_of_address];
            format!("{a} {b} {c} {d} {} {absent} {}", digits.len(), word(&array(digits)))
        }
        None => format!("0 0 0 0 0 0 {}", word(&[0; 255])),
    }
}

/// What the reading of an address's value answers, beside the table lent for its others; the value starts at a position.
fn addressed(address: Answer<SuaAddress>, value: &[u8], at: usize, mut columns: Columns) -> String {
    let stored = columns.store(address.as_ref().map(|_| other_places(value, at)).map_err(Clone::clone));
    let (first, a) = match (&stored, &address) {
        (Ok(_), Ok(a)) => ("ok".into(), Some(a)),
        (Err(r), _) => (refused(r), None),
        (Ok(_), Err(_)) => unreachable!(),
    };
    let fields = match a {
        Some(a) => format!(
            "{} {} {} {} {} {} {} {} {} {} {}",
            a.routing_indicator.value(),
            u8::from(a.include_gt),
            u8::from(a.include_pc),
            u8::from(a.include_ssn),
            u8::from(a.global_title.is_some()),
            titled(a.global_title.as_ref(), absent::of_address(value)),
            u8::from(a.point_code.is_some()),
            a.point_code.unwrap_or(0),
            u8::from(a.ssn.is_some()),
            a.ssn.unwrap_or(0),
            a.other.len()
        ),
        None => format!("0 0 0 0 0 {} 0 0 0 0 0", titled(None, 0)),
    };
    format!("{first} {fields} {}", columns.words())
}

/// Codes stored in a lent table: 13.
fn coded(codes: Answer<Vec<u32>>, room: usize) -> String {
    let mut held = vec![HELD; room];
    let answer = codes.and_then(|codes| {
        if held.len() < codes.len() {
            return refuse(13, &[codes.len() as u64]);
        }
        for (place, code) in held.iter_mut().zip(&codes) {
            *place = u64::from(*code);
        }
        Ok(codes.len())
    });
    format!("{} {}", verdict(&answer), joined('c', &held))
}

/// The four numbers of an entry's report, and its buffer.
fn entered(octets: Answer<Vec<u8>>, mut buffer: Vec<u8>) -> String {
    let report = report(&deliver(octets, &mut buffer));
    let [a, b, c, d] = report;
    format!("{a} {b} {c} {d} {}", word(&buffer))
}

/// The report that an entry for C fills.
pub fn report(answer: &Answer<usize>) -> [u64; 4] {
    let mut report = [0; 4];
    match answer {
        Ok(n) => report[1] = *n as u64,
        Err(r) => {
            report[0] = r.number;
            report[1..=r.values.len()].copy_from_slice(&r.values);
        }
    }
    report
}

fn place((tag, start, length): Place) -> [u64; 3] {
    [tag.into(), start as u64, length as u64]
}

/// What reading one parameter answers, and what it takes with its padding.
fn one(bytes: &[u8]) -> Answer<(Place, usize, usize)> {
    let (p, consumed) = Parameter::decode(bytes)?;
    Ok(((p.tag, 4, p.value.len()), consumed, p.wire_length()))
}

fn step(bytes: &[u8], at: u64) -> Answer<Option<[u64; 4]>> {
    bounded(bytes.len())?;
    let at = usize::try_from(at).unwrap_or(usize::MAX);
    match bytes.get(at..) {
        Some(left) if left.len() >= 4 => {
            let ((tag, start, length), _, padded) = one(left)?;
            Ok(Some([tag.into(), (at + start) as u64, length as u64, (at + padded) as u64]))
        }
        _ => Ok(None),
    }
}

/// The answer to a call, as its line.
pub fn answer(call: &Call) -> String {
    let mut t = Taken { numbers: &call.numbers, octets: &call.octets };
    match call.name.as_str() {
        "decode_gt_digits" | "encode_gt_digits" | "gt_digits_length" => digits(&call.name, &mut t),
        "parameter_decode" | "parameter_encode" | "wire_length" | "as_u32" | "step" | "decode_parameters"
        | "encode_parameters" | "parameters_length" | "find_parameter" => parameters(&call.name, &mut t),
        "routing_indicator" | "title_decode" | "title_encode" | "e164" | "address_decode" | "address_encode"
        | "address_indicator" | "with_gt" | "with_ssn_pc" | "rewritten_length" | "rewrite" => addresses(&call.name, &mut t),
        "class"
        | "class_type"
        | "header_decode"
        | "header_encode"
        | "message_decode"
        | "message_encode"
        | "pack_affected_point_codes"
        | "unpack_affected_point_codes" => messages(&call.name, &mut t),
        "routing_context"
        | "sequence_control"
        | "protocol_class"
        | "ss7_hop_count"
        | "sccp_cause"
        | "data"
        | "affected_point_codes"
        | "source_address"
        | "destination_address" => accessors(&call.name, &mut t),
        "contexts_in" => {
            let (count, table, set, values) = (t.number(), t.table(), t.codes(), t.bytes());
            match table.parameters(values, count) {
                Ok(parameters) if contexts_in(&parameters, &set) => "yes".into(),
                Ok(_) => "no".into(),
                Err(r) => refused(&r),
            }
        }
        "screen" => screened(call).iter().map(answer).collect::<Vec<String>>().join(BETWEEN),
        "settle" => {
            let buffer = t.buffer();
            written(form(t.bytes()), buffer)
        }
        "settled_length" => verdict(&form(t.bytes()).map(|f| f.len())),
        "read" => {
            let buffer = t.buffer();
            entered(account(t.bytes()), buffer)
        }
        "encode" => {
            let (class, msg_type, buffer) = (t.octet(), t.octet(), t.buffer());
            entered(encode_flat(class, msg_type, t.bytes()), buffer)
        }
        _ => constructors(&call.name, &mut t),
    }
}

fn digits(name: &str, t: &mut Taken) -> String {
    match name {
        "decode_gt_digits" => {
            let (declared, bytes) = (t.octet(), t.bytes());
            let read = bounded(bytes.len()).map(|()| sua::bcd::decode_gt_digits(bytes, declared.into()).into_bytes());
            let absent = if read.is_ok() { absent::of_digits(bytes, declared) } else { 0 };
            let mut held = vec![0; 255];
            let answer = deliver(read, &mut held);
            format!("{} {absent} {}", verdict(&answer), word(&held))
        }
        "encode_gt_digits" => {
            let buffer = t.buffer();
            written(write_digits(t.bytes()), buffer)
        }
        _ => verdict(&write_digits(t.bytes()).map(|o| o.len())),
    }
}

fn parameters(name: &str, t: &mut Taken) -> String {
    match name {
        "parameter_decode" => {
            let bytes = t.bytes();
            numbers(
                bounded(bytes.len()).and_then(|()| one(bytes)).map(|((tag, start, length), consumed, _)| {
                    Some([tag.into(), start as u64, length as u64, consumed as u64])
                }),
            )
        }
        "parameter_encode" => {
            let (tag, buffer, value) = (t.short(), t.buffer(), t.bytes());
            written(fits(tag, value.len()).map(|()| Parameter::new(tag, value.to_vec()).encode()), buffer)
        }
        "wire_length" => {
            let (tag, length) = (t.short(), t.size());
            verdict(&fits(tag, length).map(|()| Parameter::new(tag, vec![0; length]).wire_length()))
        }
        "as_u32" => {
            let value = t.bytes();
            let number = bounded(value.len()).map(|()| Parameter::new(0, value.to_vec()).as_u32());
            numbers(number.map(|n| n.map(|n| [n.into()])))
        }
        "step" => {
            let at = t.number();
            match step(t.bytes(), at) {
                Ok(None) => "end".into(),
                other => numbers(other),
            }
        }
        "decode_parameters" => {
            let (mut columns, bytes) = (t.rooms(), t.bytes());
            let read = bounded(bytes.len()).and_then(|()| Ok(places(&decode_parameters(bytes)?, 0)));
            let answer = columns.store(read);
            format!("{} {}", verdict(&answer), columns.words())
        }
        "encode_parameters" => {
            let (count, buffer, table, values) = (t.number(), t.buffer(), t.table(), t.bytes());
            written(table.parameters(values, count).and_then(|ps| write_parameters(&ps, 0)), buffer)
        }
        "parameters_length" => {
            let (count, table, values) = (t.number(), t.table(), t.bytes());
            verdict(
                &table.parameters(values, count).and_then(|ps| {
                    ps.iter().try_fold(0, |sum, p| Ok(sum + fits(p.tag, p.value.len()).map(|()| p.wire_length())?))
                }),
            )
        }
        _ => {
            let (count, tag, table, values) = (t.number(), t.short(), t.table(), t.bytes());
            numbers(table.records(values, count).map(|rs| first(&rs, tag).map(|(_, p)| place(p))))
        }
    }
}

/// The first record with a tag, found as the Rust finds it.
fn first(records: &[(Parameter, Place)], tag: u16) -> Option<(Parameter, Place)> {
    let parameters: Vec<Parameter> = records.iter().map(|(p, _)| p.clone()).collect();
    let found = find_parameter(&parameters, tag)?;
    let row = parameters.iter().position(|p| std::ptr::eq(p, found)).expect("it is in the list");
    Some(records[row].clone())
}

fn addresses(name: &str, t: &mut Taken) -> String {
    match name {
        "routing_indicator" => {
            let indicator = RoutingIndicator::from_u16(t.short());
            numbers(indicator.map(|r| Some([r.value().into()])).map_err(Refused::from))
        }
        "title_decode" => {
            let value = t.bytes();
            let read = bounded(value.len()).and_then(|()| Ok(GlobalTitle::decode(value)?));
            match read {
                Ok(title) => format!("ok {}", titled(Some(&title), absent::of_title(value))),
                Err(r) => format!("{} {}", refused(&r), titled(None, 0)),
            }
        }
        "title_encode" => {
            let (title, buffer) = (t.title(), t.buffer());
            written(title.given().and_then(|g| write_title(&g)), buffer)
        }
        "e164" => {
            let (count, buffer, digits) = (t.number(), t.buffer(), array(t.bytes()));
            let title = Title { gti: 4, tt: 0, np: 1, noa: 4, count, digits };
            written(title.given().and_then(|g| write_title(&GlobalTitle::e164(g.digits))), buffer)
        }
        "address_decode" => {
            let (columns, value) = (t.rooms(), t.bytes());
            addressed(read_address(value), value, 0, columns)
        }
        "address_encode" => {
            let (address, buffer, table, values) = (t.address(), t.buffer(), t.table(), t.bytes());
            written(address.write(0, values, &table).map(|(_, octets)| octets), buffer)
        }
        "address_indicator" => {
            let mut address = t.address();
            address.count = 0;
            address.title = None;
            let table = Table { tags: vec![], starts: vec![], lengths: vec![] };
            let given = address.given(&[], &table).expect("nothing is refused");
            format!("ok {}", given.address_indicator())
        }
        "with_gt" => {
            let (title, ssn, buffer) = (t.title(), t.some(), t.buffer());
            let ssn = ssn.map(|n| n as u8);
            written(title.given().and_then(|g| write_address(0, &SuaAddress::with_gt(g, ssn))), buffer)
        }
        "with_ssn_pc" => {
            let (ssn, code, buffer) = (t.octet(), t.word(), t.buffer());
            written(write_address(0, &SuaAddress::with_ssn_pc(ssn, code)), buffer)
        }
        "rewritten_length" => {
            let (tag, value) = (t.short(), t.bytes());
            verdict(&read_address(value).and_then(|a| write_address(tag, &a)).map(|o| o.len()))
        }
        _ => {
            let (tag, buffer, value) = (t.short(), t.buffer(), t.bytes());
            written(read_address(value).and_then(|a| write_address(tag, &a)), buffer)
        }
    }
}

fn messages(name: &str, t: &mut Taken) -> String {
    match name {
        "class" => numbers(MessageClass::from_u8(t.octet()).map(|c| Some([c as u64])).map_err(Refused::from)),
        "class_type" => {
            let (class, msg_type) = (t.octet(), t.octet());
            let found = MessageType::from_class_type(class, msg_type).map_err(Refused::from);
            numbers(found.map(|m| {
                let (class, msg_type) = m.class_and_type();
                Some([class.into(), msg_type.into(), m.message_class() as u64])
            }))
        }
        "header_decode" => {
            let bytes = t.bytes();
            let read = bounded(bytes.len()).and_then(|()| Ok(CommonHeader::decode(bytes)?));
            numbers(read.map(|h| {
                let (class, msg_type) = h.message_type.class_and_type();
                Some([h.version.into(), class.into(), msg_type.into(), h.message_length.into()])
            }))
        }
        "header_encode" => {
            let (version, class, msg_type) = (t.octet(), t.octet(), t.octet());
            let (message_length, buffer) = (t.word(), t.buffer());
            match MessageType::from_class_type(class, msg_type) {
                Ok(message_type) => {
                    written(Ok(CommonHeader { version, message_type, message_length }.encode().to_vec()), buffer)
                }
                Err(_) => "unknown".into(),
            }
        }
        "message_decode" => {
            let (mut columns, bytes) = (t.rooms(), t.bytes());
            let read = read_message(bytes);
            let stored = columns.store(read.as_ref().map(|m| places(&m.parameters, 8)).map_err(Clone::clone));
            let answer = stored.map(|count| {
                let (class, msg_type) = read.as_ref().expect("it was read").message_type.class_and_type();
                Some([class.into(), msg_type.into(), count as u64])
            });
            format!("{} {}", numbers(answer), columns.words())
        }
        "message_encode" => {
            let (class, msg_type, count, buffer) = (t.octet(), t.octet(), t.number(), t.buffer());
            let (table, values) = (t.table(), t.bytes());
            match MessageType::from_class_type(class, msg_type) {
                Ok(m) => written(table.parameters(values, count).and_then(|ps| write_message(m, ps)), buffer),
                Err(_) => "unknown".into(),
            }
        }
        "pack_affected_point_codes" => {
            let (buffer, codes) = (t.buffer(), t.codes());
            written(packed(&codes), buffer)
        }
        _ => {
            let (room, value) = (t.size(), t.bytes());
            coded(bounded(value.len()).map(|()| unpack_affected_point_codes(value)), room)
        }
    }
}

/// Point codes as the value of one parameter: 10.
fn packed(codes: &[u32]) -> Answer<Vec<u8>> {
    fits(tags::AFFECTED_POINT_CODE, 4 * codes.len())?;
    Ok(pack_affected_point_codes(codes))
}

fn accessors(name: &str, t: &mut Taken) -> String {
    let count = t.number();
    let room = if name == "affected_point_codes" { t.size() } else { 0 };
    let lent = if name.ends_with("_address") { t.rooms() } else { Columns([vec![], vec![], vec![]]) };
    let (table, values) = (t.table(), t.bytes());
    let records = table.records(values, count);
    let message =
        |records: Vec<(Parameter, Place)>| SuaMessage::new(MessageType::Cldt, records.into_iter().map(|(p, _)| p).collect());
    match name {
        "routing_context" => numbers(records.map(|rs| message(rs).routing_context().map(|n| [n.into()]))),
        "sequence_control" => numbers(records.map(|rs| message(rs).sequence_control().map(|n| [n.into()]))),
        "protocol_class" => numbers(records.map(|rs| message(rs).protocol_class().map(|n| [n.into()]))),
        "ss7_hop_count" => numbers(records.map(|rs| message(rs).ss7_hop_count().map(|n| [n.into()]))),
        "sccp_cause" => numbers(records.map(|rs| message(rs).sccp_cause().map(|(a, b)| [a.into(), b.into()]))),
        "data" => {
            let part = records.clone().map(|rs| message(rs).data().map(<[u8]>::to_vec));
            let at = records.map(|rs| first(&rs, tags::DATA).map(|(_, p)| place(p)));
            let part = part.ok().flatten().unwrap_or_default();
            format!("{} {}", numbers(at), word(&part))
        }
        "affected_point_codes" => coded(records.map(|rs| message(rs).affected_point_codes()), room),
        _ => {
            let source = name == "source_address";
            let tag = if source { tags::SOURCE_ADDRESS } else { tags::DESTINATION_ADDRESS };
            let found = records.as_ref().ok().and_then(|rs| first(rs, tag));
            let read = records.and_then(|rs| {
                if let Some((p, _)) = &found {
                    bounded(p.value.len())?;
                }
                let m = message(rs);
                Ok(if source { m.source_address()? } else { m.destination_address()? })
            });
            let (value, at) = found.as_ref().map_or((&[][..], 0), |(p, place)| (&p.value, place.1));
            addressed(read, value, at, lent)
        }
    }
}

/// Whether the first Routing Context is present and all its values are in a set (document 02, CR 6).
fn contexts_in(parameters: &[Parameter], set: &[u32]) -> bool {
    find_parameter(parameters, tags::ROUTING_CONTEXT).is_some_and(|context| all_in(&context.value, set))
}

/// Whether a value's length is a positive multiple of 4 and every value of 32 bits is in a set.
pub fn all_in(value: &[u8], set: &[u32]) -> bool {
    let is_in = |four: &[u8]| set.iter().any(|n| n.to_be_bytes() == four);
    !value.is_empty() && value.len() % 4 == 0 && value.chunks(4).all(is_in)
}

/// A message that a constructor made, written: 10 in order.
fn made(message: SuaMessage) -> Answer<Vec<u8>> {
    write_message(message.message_type, message.parameters)
}

fn connectionless(name: &str, t: &mut Taken) -> String {
    let routing_context = t.word();
    let cldt = name == "cldt";
    let (a, b, c) = (t.octet(), t.number(), t.number());
    let hop = if cldt { t.octet() } else { 0 };
    let buffer = t.buffer();
    let (source, destination) = (t.address(), t.address());
    let (source_table, destination_table) = (t.table(), t.table());
    let (source_values, destination_values, data) = (t.bytes(), t.bytes(), t.bytes());
    let octets = || {
        let (source, _) = source.write(tags::SOURCE_ADDRESS, source_values, &source_table)?;
        let (destination, _) = destination.write(tags::DESTINATION_ADDRESS, destination_values, &destination_table)?;
        let there = c != 0;
        let data = data.to_vec();
        made(if cldt {
            SuaMessage::cldt(routing_context, a, &source, &destination, b as u32, there.then_some(hop), data)?
        } else {
            SuaMessage::cldr(routing_context, a, b as u8, &source, &destination, there.then_some(data))?
        })
    };
    written(octets(), buffer)
}

fn constructors(name: &str, t: &mut Taken) -> String {
    let message = match name {
        "cldt" | "cldr" => return connectionless(name, t),
        "asp_up" | "asp_up_ack" | "asp_down" | "asp_down_ack" => {
            let asp_id = if name == "asp_up" { t.some() } else { None };
            let there = t.flag();
            let buffer = t.buffer();
            let info = std::str::from_utf8(t.bytes()).expect("the Rust takes text");
            let info = there.then_some(info);
            let message = match name {
                "asp_up" => SuaMessage::asp_up(asp_id, info),
                "asp_up_ack" => SuaMessage::asp_up_ack(info),
                "asp_down" => SuaMessage::asp_down(info),
                _ => SuaMessage::asp_down_ack(info),
            };
            return written(made(message), buffer);
        }
        "heartbeat" | "heartbeat_ack" => {
            let there = t.flag();
            let buffer = t.buffer();
            let data = there.then_some(t.bytes().to_vec());
            let message = if name == "heartbeat" { SuaMessage::heartbeat(data) } else { SuaMessage::heartbeat_ack(data) };
            return written(made(message), buffer);
        }
        "error" => {
            let (code, routing_context, there, buffer) = (t.word(), t.some(), t.flag(), t.buffer());
            let info = there.then_some(t.bytes().to_vec());
            return written(made(SuaMessage::error(code, routing_context, info)), buffer);
        }
        "duna" | "dava" | "daud" => {
            let (routing_context, buffer, codes) = (t.some(), t.buffer(), t.codes());
            let message = match name {
                "duna" => SuaMessage::duna(routing_context, &codes),
                "dava" => SuaMessage::dava(routing_context, &codes),
                _ => SuaMessage::daud(routing_context, &codes),
            };
            return written(made(message), buffer);
        }
        "asp_active" => SuaMessage::asp_active(t.some(), t.some()),
        "asp_active_ack" => SuaMessage::asp_active_ack(t.some(), t.some()),
        "asp_inactive" => SuaMessage::asp_inactive(t.some()),
        "asp_inactive_ack" => SuaMessage::asp_inactive_ack(t.some()),
        "notify" => SuaMessage::notify(t.word(), t.some(), t.some()),
        _ => return "unknown".into(),
    };
    let buffer = t.buffer();
    written(made(message), buffer)
}
