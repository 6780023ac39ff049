//! M3UA messages by the layout of RFC 4666, section 3, in the plainest way: what is read, the settled form, the account and the
//! writing of a list, with what each refuses. The order of the refusals can be read off it.

use crate::oracle::{bounded, fits, flat_list, refuse, Answer};

/// The pairs of class and type (RFC 4666, 3.1.2).
pub const PAIRS: [(u8, u8); 23] = [
    // MGMT: ERR, NTFY
    (0, 0),
    (0, 1),
    // transfer: DATA
    (1, 1),
    // SSNM: DUNA, DAVA, DAUD, SCON, DUPU, DRST
    (2, 1),
    (2, 2),
    (2, 3),
    (2, 4),
    (2, 5),
    (2, 6),
    // ASPSM: ASPUP, ASPDN, BEAT, and their acknowledgements
    (3, 1),
    (3, 2),
    (3, 3),
    (3, 4),
    (3, 5),
    (3, 6),
    // ASPTM: ASPAC, ASPIA, and their acknowledgements
    (4, 1),
    (4, 2),
    (4, 3),
    (4, 4),
    // RKM: REG REQ, REG RSP, DEREG REQ, DEREG RSP
    (9, 1),
    (9, 2),
    (9, 3),
    (9, 4),
];
/// DATA.
pub const DATA: (u8, u8) = (1, 1);

/// The tag of Protocol Data (RFC 4666, 3.3.1).
pub const PROTOCOL_DATA: u16 = 0x0210;
/// The octets of its value in front of the user's data.
pub const LABEL: usize = 12;

/// A parameter: its tag, where its value starts, counted from the message's first octet, and the value.
#[derive(Debug, Clone, Copy, PartialEq, Eq)]
pub struct Parameter<'a> {
    pub tag: u16,
    pub start: usize,
    pub value: &'a [u8],
}

impl Parameter<'_> {
    /// Whether it is a Protocol Data that is refused.
    pub fn is_short(&self) -> bool {
        self.tag == PROTOCOL_DATA && self.value.len() < LABEL
    }
}

/// A message: its class and type, and its parameters in wire order.
#[derive(Debug, Clone, PartialEq, Eq)]
pub struct Message<'a> {
    pub class: u8,
    pub msg_type: u8,
    pub parameters: Vec<Parameter<'a>>,
}

/// A Protocol Data's value.
#[derive(Debug, Clone, Copy, PartialEq, Eq)]
pub struct ProtocolData<'a> {
    pub originating: u32,
    pub destination: u32,
    pub service_indicator: u8,
    pub network_indicator: u8,
    pub priority: u8,
    pub selection: u8,
    pub payload: &'a [u8],
}

/// 4.
pub fn known(class: u8, msg_type: u8) -> Answer<()> {
    if !PAIRS.contains(&(class, msg_type)) {
        return refuse(4, &[class.into(), msg_type.into()]);
    }
    Ok(())
}

/// A message's class and type, and the octets behind its header: 12, 1, 2, 4.
pub fn header(octets: &[u8]) -> Answer<(u8, u8, &[u8])> {
    bounded(octets.len())?;
    let [version, _reserved, class, msg_type, _, _, _, _, behind @ ..] = octets else {
        return refuse(1, &[8, octets.len() as u64]);
    };
    if *version != 1 {
        return refuse(2, &[(*version).into()]);
    }
    known(*class, *msg_type)?;
    Ok((*class, *msg_type, behind))
}

/// The parameters in octets that start at a position, in wire order, up to the end or the first that is refused: 5, 6.
pub fn walk(octets: &[u8], at: usize) -> (Vec<Parameter<'_>>, Answer<()>) {
    let mut parameters = Vec::new();
    let mut left = octets;
    while let [tag_high, tag_low, length_high, length_low, behind @ ..] = left {
        let tag = u16::from_be_bytes([*tag_high, *tag_low]);
        let length = usize::from(u16::from_be_bytes([*length_high, *length_low]));
        if length < 4 {
            return (parameters, refuse(5, &[tag.into(), length as u64]));
        }
        let Some(value) = behind.get(..length - 4) else {
            return (parameters, refuse(6, &[tag.into(), length as u64, left.len() as u64]));
        };
        parameters.push(Parameter { tag, start: at + octets.len() - behind.len(), value });
        left = left.get(length.next_multiple_of(4)..).unwrap_or(&[]);
    }
    (parameters, Ok(()))
}

/// A Protocol Data's value read: 6.
pub fn protocol_data(value: &[u8]) -> Answer<ProtocolData<'_>> {
    let [o1, o2, o3, o4, d1, d2, d3, d4, service, network, priority, selection, payload @ ..] = value else {
        return refuse(6, &[PROTOCOL_DATA.into(), LABEL as u64, value.len() as u64]);
    };
    Ok(ProtocolData {
        originating: u32::from_be_bytes([*o1, *o2, *o3, *o4]),
        destination: u32::from_be_bytes([*d1, *d2, *d3, *d4]),
        service_indicator: *service,
        network_indicator: *network,
        priority: *priority,
        selection: *selection,
        payload,
    })
}

/// A message read: 12, 1, 2, 4, 5 or 6 of the walk; then 6 of each Protocol Data.
pub fn read(octets: &[u8]) -> Answer<Message<'_>> {
    let (class, msg_type, behind) = header(octets)?;
    let (parameters, walked) = walk(behind, 8);
    walked?;
    for p in parameters.iter().filter(|p| p.tag == PROTOCOL_DATA) {
        protocol_data(p.value)?;
    }
    Ok(Message { class, msg_type, parameters })
}

/// A message in its octets: nothing in it but class, type, and tags with their values.
pub fn written(class: u8, msg_type: u8, parameters: &[(u16, &[u8])]) -> Vec<u8> {
    let mut out = vec![1, 0, class, msg_type, 0, 0, 0, 0];
    for (tag, value) in parameters {
        out.extend(tag.to_be_bytes());
        out.extend((4 + value.len() as u16).to_be_bytes());
        out.extend(*value);
        out.resize(out.len().next_multiple_of(4), 0);
    }
    let length = (out.len() as u32).to_be_bytes();
    out[4..8].copy_from_slice(&length);
    out
}

/// The settled form: reading's refusals.
pub fn form(octets: &[u8]) -> Answer<Vec<u8>> {
    let message = read(octets)?;
    let parameters: Vec<(u16, &[u8])> = message.parameters.iter().map(|p| (p.tag, p.value)).collect();
    Ok(written(message.class, message.msg_type, &parameters))
}

/// The flat account: reading's refusals.
pub fn account(octets: &[u8]) -> Answer<Vec<u8>> {
    let message = read(octets)?;
    let mut out = vec![message.class, message.msg_type];
    let four = |out: &mut Vec<u8>, n: usize| out.extend((n as u32).to_be_bytes());
    four(&mut out, message.parameters.len());
    for p in &message.parameters {
        out.extend(p.tag.to_be_bytes());
        four(&mut out, p.start);
        four(&mut out, p.value.len());
        if p.tag == PROTOCOL_DATA {
            let data = protocol_data(p.value)?;
            out.extend(data.originating.to_be_bytes());
            out.extend(data.destination.to_be_bytes());
            out.extend([data.service_indicator, data.network_indicator, data.priority, data.selection]);
            four(&mut out, p.start + LABEL);
            four(&mut out, data.payload.len());
        }
    }
    Ok(out)
}

/// The message of a class, a type and a flat list: 4, 15, 10 in order, 12.
pub fn encode_flat(class: u8, msg_type: u8, list: &[u8]) -> Answer<Vec<u8>> {
    known(class, msg_type)?;
    let parameters = flat_list(list)?;
    for (tag, value) in &parameters {
        fits(*tag, value.len())?;
    }
    let length: usize = parameters.iter().map(|(_, value)| (4 + value.len()).next_multiple_of(4)).sum();
    bounded(8 + length)?;
    Ok(written(class, msg_type, &parameters))
}
