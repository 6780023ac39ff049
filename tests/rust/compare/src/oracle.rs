//! What the Rust answers, in document 01's numbers. Where document 01 refuses what the Rust goes on with (10, 11, 12) or
//! cannot meet (13, 14, 15), the answer is document 01's. The Rust has no settled form: what stands for it is what it encodes
//! of a message that it read, without the hop counters (document 02, CR 3).

use sua::address::{GlobalTitle, SuaAddress};
use sua::error::SuaError;
use sua::header::MessageType;
use sua::message::SuaMessage;
use sua::parameter::{decode_parameters, tags, Parameter};

/// The octets given or written, at most.
pub const MOST_OCTETS: usize = 1_048_576;
/// The octets of a value, at most.
pub const MOST_VALUE: usize = 65_531;

/// A refusal: its number and its values.
#[derive(Debug, Clone, PartialEq, Eq)]
pub struct Refused {
    pub number: u64,
    pub values: Vec<u64>,
}

pub type Answer<T> = Result<T, Refused>;

pub fn refuse<T>(number: u64, values: &[u64]) -> Answer<T> {
    Err(Refused { number, values: values.to_vec() })
}

/// The number and the values of a refusal of bindings/rust.
pub fn refused(r: navrost::Refusal) -> Refused {
    Refused { number: r.number().into(), values: r.values().to_vec() }
}

impl From<SuaError> for Refused {
    fn from(e: SuaError) -> Refused {
        let (number, values) = match e {
            SuaError::TooShort { expected, actual } => (1, vec![expected as u64, actual as u64]),
            SuaError::InvalidVersion(v) => (2, vec![v.into()]),
            SuaError::InvalidMessageClass(c) => (3, vec![c.into()]),
            SuaError::InvalidMessageType { class, msg_type } => (4, vec![class.into(), msg_type.into()]),
            SuaError::InvalidParameter { tag, length } => (5, vec![tag.into(), length.into()]),
            SuaError::ParameterTooShort { tag, expected, actual } => (6, vec![tag.into(), expected as u64, actual as u64]),
            SuaError::MissingParameter(tag) => (7, vec![tag.into()]),
            SuaError::InvalidRoutingIndicator(n) => (8, vec![n.into()]),
            SuaError::InvalidBcdDigit(octet) => (9, vec![octet.into()]),
        };
        Refused { number, values }
    }
}

/// 12.
pub fn bounded(octets: usize) -> Answer<()> {
    if octets > MOST_OCTETS {
        return refuse(12, &[octets as u64]);
    }
    Ok(())
}

/// 10.
pub fn fits(tag: u16, length: usize) -> Answer<()> {
    if length > MOST_VALUE {
        return refuse(10, &[tag.into(), length as u64]);
    }
    Ok(())
}

/// Octets delivered into a lent buffer: their count, and what the buffer then holds; 14.
pub fn deliver(octets: Answer<Vec<u8>>, buffer: &mut [u8]) -> Answer<usize> {
    let octets = octets?;
    if buffer.len() < octets.len() {
        return refuse(14, &[octets.len() as u64]);
    }
    buffer[..octets.len()].copy_from_slice(&octets);
    Ok(octets.len())
}

/// A parameter's tag, and where its value starts and how long it is.
pub type Place = (u16, usize, usize);

/// The places of parameters that stand one after the other from a position on.
pub fn places(parameters: &[Parameter], from: usize) -> Vec<Place> {
    let mut at = from;
    parameters
        .iter()
        .map(|p| {
            let place = (p.tag, at + 4, p.value.len());
            at += p.wire_length();
            place
        })
        .collect()
}

/// Whether a parameter is a source or a destination address.
pub fn is_address(tag: u16) -> bool {
    tag == tags::SOURCE_ADDRESS || tag == tags::DESTINATION_ADDRESS
}

/// Whether a parameter is an SS7 hop counter.
pub fn is_hop_counter(tag: u16) -> bool {
    tag == tags::SS7_HOP_COUNTER
}

/// Whether a sub-parameter is no title, point code or SSN.
pub fn is_other(tag: u16) -> bool {
    !matches!(tag, tags::GLOBAL_TITLE | tags::POINT_CODE | tags::SUBSYSTEM_NUMBER)
}

pub fn read_message(bytes: &[u8]) -> Answer<SuaMessage> {
    bounded(bytes.len())?;
    Ok(SuaMessage::decode(bytes)?)
}

pub fn read_address(value: &[u8]) -> Answer<SuaAddress> {
    bounded(value.len())?;
    Ok(SuaAddress::decode(value)?)
}

/// An address written as the value of a parameter: 9, 10 for each other, 10 for the whole.
pub fn write_address(tag: u16, address: &SuaAddress) -> Answer<Vec<u8>> {
    let value = address.encode()?;
    for other in &address.other {
        fits(other.tag, other.value.len())?;
    }
    fits(tag, value.len())?;
    Ok(value)
}

/// A message read, and each address in it read and written again.
fn rewritten(bytes: &[u8]) -> Answer<SuaMessage> {
    let mut message = read_message(bytes)?;
    for p in &mut message.parameters {
        if is_address(p.tag) {
            p.value = write_address(p.tag, &SuaAddress::decode(&p.value)?)?;
        }
    }
    Ok(message)
}

/// The settled form: such a message without its hop counters, encoded.
pub fn form(bytes: &[u8]) -> Answer<Vec<u8>> {
    let mut message = rewritten(bytes)?;
    message.parameters.retain(|p| !is_hop_counter(p.tag));
    Ok(message.encode())
}

/// The octets that it takes with its hop counters.
pub fn length_with_counters(bytes: &[u8]) -> Answer<usize> {
    Ok(rewritten(bytes)?.encode().len())
}

fn put_place(out: &mut Vec<u8>, (tag, start, length): Place) {
    out.extend(tag.to_be_bytes());
    out.extend((start as u32).to_be_bytes());
    out.extend((length as u32).to_be_bytes());
}

/// The others of an address value that was read, at their places; the value starts at a position.
pub fn other_places(value: &[u8], at: usize) -> Vec<Place> {
    let subs = decode_parameters(&value[4..]).expect("the address was read");
    places(&subs, at + 4).into_iter().filter(|p| is_other(p.0)).collect()
}

/// The flat account of a message that sua.h describes.
pub fn account(bytes: &[u8]) -> Answer<Vec<u8>> {
    let message = read_message(bytes)?;
    let (class, msg_type) = message.message_type.class_and_type();
    let mut out = vec![class, msg_type];
    out.extend((message.parameters.len() as u32).to_be_bytes());
    for (p, place) in message.parameters.iter().zip(places(&message.parameters, 8)) {
        put_place(&mut out, place);
        if is_address(p.tag) {
            let a = SuaAddress::decode(&p.value)?;
            out.extend(a.routing_indicator.value().to_be_bytes());
            out.push(a.address_indicator() as u8);
            match &a.global_title {
                None => out.push(0),
                Some(t) => {
                    let count = t.digits.len() as u8;
                    out.extend([1, t.gti, t.translation_type, t.numbering_plan, t.nature_of_address, count]);
                    out.extend(t.digits.as_bytes());
                }
            }
            match a.point_code {
                None => out.push(0),
                Some(code) => {
                    out.push(1);
                    out.extend(code.to_be_bytes());
                }
            }
            match a.ssn {
                None => out.push(0),
                Some(ssn) => out.extend([1, ssn]),
            }
            out.extend((a.other.len() as u32).to_be_bytes());
            for other in other_places(&p.value, place.1) {
                put_place(&mut out, other);
            }
        }
    }
    Ok(out)
}

/// A list of parameters written: 10 in order, 12.
pub fn write_parameters(parameters: &[Parameter], header: usize) -> Answer<Vec<u8>> {
    for p in parameters {
        fits(p.tag, p.value.len())?;
    }
    bounded(header + parameters.iter().map(Parameter::wire_length).sum::<usize>())?;
    Ok(sua::parameter::encode_parameters(parameters))
}

/// A message written: 10 in order, 12.
pub fn write_message(message_type: MessageType, parameters: Vec<Parameter>) -> Answer<Vec<u8>> {
    write_parameters(&parameters, 8)?;
    Ok(SuaMessage::new(message_type, parameters).encode())
}

/// The tags and values of a flat list: 15.
pub fn flat_list(list: &[u8]) -> Answer<Vec<(u16, &[u8])>> {
    let mut parameters = Vec::new();
    let mut left = list;
    while !left.is_empty() {
        if left.len() < 6 {
            return refuse(15, &[]);
        }
        let tag = u16::from_be_bytes([left[0], left[1]]);
        let length = u32::from_be_bytes([left[2], left[3], left[4], left[5]]) as usize;
        if left.len() - 6 < length {
            return refuse(15, &[]);
        }
        parameters.push((tag, &left[6..6 + length]));
        left = &left[6 + length..];
    }
    Ok(parameters)
}

/// The message of a class, a type and a flat list: 4, 15, 10 in order, 12.
pub fn encode_flat(class: u8, msg_type: u8, list: &[u8]) -> Answer<Vec<u8>> {
    let message_type = MessageType::from_class_type(class, msg_type)?;
    let parameters = flat_list(list)?.into_iter().map(|(tag, value)| Parameter::new(tag, value.to_vec())).collect();
    write_message(message_type, parameters)
}

/// The octet that a digit string is refused at, where it is no text that the Rust can be given.
fn first_bad(digits: &[u8]) -> Option<u8> {
    digits.iter().copied().find(|d| !matches!(d, b'0'..=b'9' | b'*' | b'#' | b'a'..=b'c' | b'A'..=b'C'))
}

/// Digits as the text that the Rust takes: 11; 9 where they are no text.
pub fn text(digits: &[u8]) -> Answer<String> {
    if digits.len() > 255 {
        return refuse(11, &[digits.len() as u64]);
    }
    match String::from_utf8(digits.to_vec()) {
        Ok(text) => Ok(text),
        Err(_) => refuse(9, &[first_bad(digits).expect("digits are text").into()]),
    }
}

pub fn write_digits(digits: &[u8]) -> Answer<Vec<u8>> {
    Ok(sua::bcd::encode_gt_digits(&text(digits)?)?)
}

pub fn write_title(title: &GlobalTitle) -> Answer<Vec<u8>> {
    Ok(title.encode()?)
}
