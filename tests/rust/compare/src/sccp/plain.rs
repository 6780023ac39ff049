//! Party addresses of SCCP by the layout of ITU-T Q.713, 3.4, and the conditions of document 02's CR 5, in the plainest way.
//! Each condition that does not hold is named. Address values of SUA are read and written by the Rust.

use crate::oracle::{bounded, read_address, refuse, write_address, Answer};
use sua::address::{GlobalTitle, RoutingIndicator, SuaAddress};

/// The character of each half octet.
pub const DIGITS: &str = "0123456789*#abc?";

pub fn half_octet(digit: char) -> u8 {
    DIGITS.find(digit).expect("the Rust reads no other") as u8
}

/// Digits, two to an octet, the first in the low half, and a filler behind an odd number.
pub fn packed(digits: &str, filler: u8) -> Vec<u8> {
    let halves: Vec<u8> = digits.chars().map(half_octet).collect();
    halves.chunks(2).map(|two| two[0] + 16 * two.get(1).copied().unwrap_or(filler)).collect()
}

/// A number that is above a bound: by one, or by more.
fn above(what: &str, number: u32, most: u32) -> Option<String> {
    match number.checked_sub(most)? {
        0 => None,
        1 => Some(format!("{what} {number}")),
        _ => Some(format!("{what} above {}", most + 1)),
    }
}

/// The conditions of 17 that an address breaks.
pub fn broken(a: &SuaAddress) -> Vec<String> {
    let mut all = Vec::new();
    let routing = a.routing_indicator.value();
    if !matches!(routing, 1 | 2) {
        all.push(format!("routing indicator {routing}"));
    }
    let parts = [
        ("title", a.include_gt, a.global_title.is_some()),
        ("point code", a.include_pc, a.point_code.is_some()),
        ("SSN", a.include_ssn, a.ssn.is_some()),
    ];
    for (part, bit, there) in parts {
        match (bit, there) {
            (true, false) => all.push(format!("{part}: bit alone")),
            (false, true) => all.push(format!("{part}: no bit")),
            _ => {}
        }
    }
    if !a.other.is_empty() {
        all.push("another sub-parameter".into());
    }
    all.extend(a.point_code.and_then(|code| above("point code", code, 16_383)));
    if let Some(title) = &a.global_title {
        match title.gti {
            4 => {}
            gti @ 0..=3 => all.push(format!("title indicator {gti}")),
            _ => all.push("title indicator above 4".into()),
        }
        all.extend(above("numbering plan", title.numbering_plan.into(), 15));
        all.extend(above("nature", title.nature_of_address.into(), 127));
        if title.digits.contains('?') {
            all.push("digit ?".into());
        }
    }
    all
}

/// The party address of an address that breaks none.
pub fn party(a: &SuaAddress) -> Vec<u8> {
    let routing = u8::from(a.routing_indicator == RoutingIndicator::RouteOnSsnAndPc);
    let indicator = if a.global_title.is_some() { 4 } else { 0 };
    let (ssn, code) = (u8::from(a.ssn.is_some()), u8::from(a.point_code.is_some()));
    let first = format!("0{routing}{indicator:04b}{ssn}{code}");
    let mut out = vec![u8::from_str_radix(&first, 2).expect("eight bits")];
    out.extend(a.point_code.map(|code| (code as u16).to_le_bytes()).into_iter().flatten());
    out.extend(a.ssn);
    if let Some(title) = &a.global_title {
        let scheme = if title.digits.len() % 2 == 1 { 1 } else { 2 };
        out.extend([title.translation_type, title.numbering_plan << 4 | scheme, title.nature_of_address]);
        out.extend(packed(&title.digits, 0));
    }
    out
}

/// The title of indicator 4 in these octets, and the conditions of 18 that it breaks.
fn title(octets: &[u8], broken: &mut Vec<String>) -> Option<GlobalTitle> {
    let [translation_type, plan, nature, packed @ ..] = octets else {
        broken.push(format!("ends in the title, at octet {}", octets.len()));
        return None;
    };
    if *nature >= 128 {
        broken.push("reserved bit of the nature".into());
    }
    let mut digits: String =
        packed.iter().flat_map(|octet| [octet & 15, octet >> 4]).map(|half| &DIGITS[half as usize..][..1]).collect();
    match (plan & 15, digits.pop()) {
        (1, None) => broken.push("BCD odd without digits".into()),
        (1, Some(filler)) if filler != '0' => broken.push(format!("filler {}", half_octet(filler))),
        (1, _) => {}
        (2, last) => digits.extend(last),
        (scheme, _) => {
            broken.push(format!("scheme {scheme}"));
            return None;
        }
    }
    broken.extend(above("digits:", digits.len() as u32, 255));
    if digits.contains('?') {
        broken.push("half octet 15".into());
    }
    Some(GlobalTitle::new(4, *translation_type, plan >> 4, *nature, digits))
}

/// The address of a party address, or the conditions of 18 that it breaks, as far as it can be read.
pub fn read(octets: &[u8]) -> Result<SuaAddress, Vec<String>> {
    let Some((first, mut left)) = octets.split_first() else { return Err(vec!["no octets".into()]) };
    let bit = |n: u8| first >> (n - 1) & 1 == 1;
    let mut broken = Vec::new();
    if bit(8) {
        broken.push("reserved bit of the first octet".into());
    }
    let mut point_code = None;
    if bit(1) {
        let [low, high, behind @ ..] = left else {
            broken.push(format!("ends in the point code, at octet {}", left.len()));
            return Err(broken);
        };
        if *high >= 64 {
            broken.push(format!("reserved bits {:02b} of the point code", high >> 6));
        }
        (point_code, left) = (Some(u32::from(*low) + 256 * u32::from(*high)), behind);
    }
    let mut ssn = None;
    if bit(2) {
        let [number, behind @ ..] = left else {
            broken.push("ends in front of the SSN".into());
            return Err(broken);
        };
        (ssn, left) = (Some(*number), behind);
    }
    let indicator = first >> 2 & 15;
    let global_title = match indicator {
        4 => title(left, &mut broken),
        0 if left.is_empty() => None,
        0 => {
            broken.push("octets left over".into());
            None
        }
        _ => {
            broken.push(format!("title indicator {indicator}"));
            None
        }
    };
    if !broken.is_empty() {
        return Err(broken);
    }
    let routing = if bit(7) { RoutingIndicator::RouteOnSsnAndPc } else { RoutingIndicator::RouteOnGlobalTitle };
    Ok(SuaAddress {
        routing_indicator: routing,
        include_gt: global_title.is_some(),
        include_pc: point_code.is_some(),
        include_ssn: ssn.is_some(),
        global_title,
        point_code,
        ssn,
        other: Vec::new(),
    })
}

/// What to_sccp writes: reading's refusals, then 17.
pub fn to_sccp(value: &[u8]) -> Answer<Vec<u8>> {
    let address = read_address(value)?;
    if !broken(&address).is_empty() {
        return refuse(17, &[]);
    }
    Ok(party(&address))
}

/// What from_sccp writes: 12, then 18.
pub fn from_sccp(octets: &[u8]) -> Answer<Vec<u8>> {
    bounded(octets.len())?;
    match read(octets) {
        Ok(address) => write_address(0, &address),
        Err(_) => refuse(18, &[]),
    }
}
