//! A capture of SCCP messages whose party addresses to_sccp wrote, and what tshark shows of them, beside what the addresses of
//! SUA say.

use super::{made, plain, Way};
use crate::lent;
use crate::oracle::read_address;
use crate::pcap;
use crate::random::{Group, Random};
use std::io::BufRead;
use sua::address::{GlobalTitle, RoutingIndicator, SuaAddress};

/// The link type of captures whose packets start with MTP3.
const MTP3: u32 = 141;
/// The fields that are compared, of both parties.
const PARTIES: [&str; 2] = ["called", "calling"];
const FIELDS: [&str; 13] =
    ["ri", "gti", "ssni", "pci", "reserved", "ssn", "pc", "tt", "np", "es", "nai", "digits", "digits.length"];
/// The characters of digits that tshark shows, at most.
const MOST_SHOWN: usize = 224;

/// Digits as tshark shows them: half octets above 9 by their names in ITU-T Q.713, 3.4.2.3.1.
fn digits(title: &GlobalTitle) -> String {
    let name = |digit: char| match digit {
        '*' | 'b' | 'c' => "(spare)".into(),
        '#' => "11".into(),
        'a' => "12".into(),
        _ => digit.to_string(),
    };
    title.digits.chars().map(name).collect::<String>().chars().take(MOST_SHOWN).collect()
}

/// What a field shows: a number, or text.
#[derive(Debug, PartialEq, Eq)]
enum Shown {
    Number(u64),
    Text(String),
}

/// What a field shows of an address; none where the address has no such part.
fn expected(field: &str, a: &SuaAddress) -> Option<Shown> {
    let title = a.global_title.as_ref();
    let number = |n: Option<u64>| n.map(Shown::Number);
    let of_title = |n: fn(&GlobalTitle) -> u8| number(title.map(|t| n(t).into()));
    match field {
        "ri" => number(Some((a.routing_indicator == RoutingIndicator::RouteOnSsnAndPc).into())),
        "gti" => number(Some(if title.is_some() { 4 } else { 0 })),
        "ssni" => number(Some(a.ssn.is_some().into())),
        "pci" => number(Some(a.point_code.is_some().into())),
        "reserved" => number(Some(0)),
        "ssn" => number(a.ssn.map(u64::from)),
        "pc" => number(a.point_code.map(u64::from)),
        "tt" => of_title(|t| t.translation_type),
        "np" => of_title(|t| t.numbering_plan),
        "es" => of_title(|t| if t.digits.len() % 2 == 1 { 1 } else { 2 }),
        "nai" => of_title(|t| t.nature_of_address),
        "digits" => title.map(digits).filter(|text| !text.is_empty()).map(Shown::Text),
        "digits.length" => number(title.map(|t| digits(t).len() as u64)),
        _ => unreachable!("no such field"),
    }
}

/// How many digits a title needs for tshark to find in them the codes that it looks for. By plan 6 these are a country's and a
/// network's, in three octets. In an international number, nature 4, by plans 1 and 7, it is a country's, for which one octet
/// will do, and behind 882 and 883 a network's too, up to the third octet, or the fourth where it begins with 51 behind 883. In
/// a country's code a half octet above 9 counts as its number: 8, 7 and 12 are 882 too.
fn least_digits(title: &GlobalTitle) -> usize {
    let digits = &title.digits;
    let country = digits.chars().take(3).fold(0, |code, digit| 10 * code + u32::from(plain::half_octet(digit)));
    match (title.numbering_plan, title.nature_of_address, country) {
        (1 | 7, 4, 883) if digits[3..].starts_with("51") => 7,
        (6, ..) | (1 | 7, 4, 882 | 883) => 5,
        (1 | 7, 4, _) => 1,
        _ => 0,
    }
}

/// Whether tshark shows what stands behind a party address. Where its title has too few digits, it shows the title and nothing
/// behind it.
fn shows_on(value: &[u8]) -> bool {
    let title = read_address(value).ok().and_then(|a| a.global_title);
    !title.is_some_and(|t| t.digits.len() < least_digits(&t))
}

/// The address values of one message: called and calling party, random ones that convert. Its last pointer counts the octets of
/// both and three more, up to 255.
fn values(r: &mut Random) -> [Vec<u8>; 2] {
    loop {
        let two = [made::value(r), made::value(r)];
        let octets: usize = two.iter().map(|value| plain::to_sccp(value).map_or(1_000, |party| party.len())).sum();
        if octets <= 252 && shows_on(&two[0]) {
            return two;
        }
    }
}

fn messages(count: u64, seed: u64) -> impl Iterator<Item = [Vec<u8>; 2]> {
    (0..count).map(move |i| values(&mut Random::nth(Group::Capture, seed, i)))
}

/// A UDT in MTP3: service information octet, routing label; message type, class, three pointers; then called party, calling
/// party and data, each with its length in front (ITU-T Q.713, 4.10).
fn udt(called: &[u8], calling: &[u8]) -> Vec<u8> {
    let data = [0x48, 0x69];
    let mut out = vec![0x83, 0x01, 0x80, 0x00, 0x00, 0x09, 0x00];
    out.extend([3, 3 + called.len() as u8, 3 + (called.len() + calling.len()) as u8]);
    for part in [called, calling, &data] {
        out.push(part.len() as u8);
        out.extend(part);
    }
    out
}

/// Writes a capture of so many messages.
pub fn capture(file: &str, count: u64, seed: u64) -> bool {
    let packets = messages(count, seed).map(|values| {
        let [called, calling] = values.map(|value| Way::To.written(&value).unwrap_or_default());
        udt(&called, &calling)
    });
    pcap::write(file, MTP3, packets)
}

/// What tshark printed, in the kind of what is expected.
fn parsed(text: &str, like: &Option<Shown>) -> Option<Shown> {
    match (like, pcap::number(text)) {
        _ if text.is_empty() => None,
        (Some(Shown::Number(_)), Some(n)) => Some(Shown::Number(n)),
        _ => Some(Shown::Text(text.into())),
    }
}

/// Compares what tshark printed of such a capture, on standard input: the names of the fields, then a line for each message,
/// separated by tabs. True where each field of each party is there and shows what the address says.
pub fn dissected(count: u64, seed: u64) -> bool {
    let mut lines = std::io::stdin().lock().lines().map_while(Result::ok);
    let names = lines.next().unwrap_or_default();
    let wanted = PARTIES.iter().flat_map(|party| FIELDS.map(|field| format!("sccp.{party}.{field}")));
    if names != wanted.collect::<Vec<_>>().join("\t") {
        println!("dissect: other fields: {names}");
        return false;
    }
    let mut met = [[0; 2]; FIELDS.len()];
    let mut differences = 0;
    for (i, values) in messages(count, seed).enumerate() {
        let line = lines.next().unwrap_or_default();
        let mut texts = line.split('\t');
        for (party, value) in PARTIES.iter().zip(&values) {
            let address = read_address(value).expect("it converts");
            for (field, met) in FIELDS.iter().zip(&mut met) {
                let says = expected(field, &address);
                let shown = parsed(texts.next().unwrap_or_default(), &says);
                met[usize::from(says.is_none())] += 1;
                if shown != says {
                    differences += 1;
                    if differences <= 5 {
                        let value = lent::shown(value);
                        println!("dissect: message {i}, {party}, {field}: {shown:?} instead of {says:?}: {value}");
                    }
                }
            }
        }
    }
    differences += lines.count();
    let counts: Vec<String> =
        FIELDS.iter().zip(met).map(|(field, [n, absent])| format!("{field}: {n}, {absent} absent")).collect();
    println!("dissect, shown of both parties: {}", counts.join("; "));
    println!("dissect: {count} messages, {} fields, {differences} differences", met.iter().flatten().sum::<u64>());
    differences == 0
}
