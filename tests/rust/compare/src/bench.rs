//! Times of the Rust and of the port in one process: settle, read with addresses, and encode; of the port's entries for M3UA beside
//! those for SUA; of its tally beside its settle; and of its addresses to and from SCCP beside the Rust's reading of the address.

use crate::entries::{Entry, Family};
use crate::m3ua::plain::{walk, DATA, LABEL, PROTOCOL_DATA};
use crate::messages::{parameter, push_flat};
use crate::oracle::form;
use crate::random::Random;
use crate::tally::{call, List, Rows};
use std::hint::black_box;
use std::time::Instant;
use sua::address::SuaAddress;
use sua::message::SuaMessage;

/// An address routed on a title of 15 digits, with an SSN.
fn address(r: &mut Random, last: u8) -> Vec<u8> {
    let title = [0, 0, 0, 4, 15, 0, 1, 4, 0x44, 0x77, 0x21, 0x43, 0x65, 0x87, 0x09, last];
    let mut value = vec![0, 1, 0, 5];
    value.extend(parameter(r, 0x8001, &title, false));
    value.extend(parameter(r, 0x8003, &[0, 0, 0, 8], false));
    value
}

/// A CLDT of 256 octets: two titled addresses, 140 octets of data.
fn cldt(r: &mut Random) -> Vec<u8> {
    let mut out = vec![1, 0, 7, 1, 0, 0, 1, 0];
    out.extend(parameter(r, 0x0006, &[0, 0, 0, 9], false));
    out.extend(parameter(r, 0x0115, &[0, 0, 0, 1], false));
    let source = address(r, 1);
    out.extend(parameter(r, 0x0102, &source, false));
    let destination = address(r, 2);
    out.extend(parameter(r, 0x0103, &destination, false));
    out.extend(parameter(r, 0x0116, &[0, 0, 0, 3], false));
    out.extend(parameter(r, 0x0101, &[0, 0, 0, 15], false));
    let data = r.octets(140);
    out.extend(parameter(r, 0x010B, &data, false));
    assert_eq!(out.len(), 256);
    out
}

/// A DATA of 256 octets: one Protocol Data with 208 octets of the user's data.
fn data(r: &mut Random) -> Vec<u8> {
    let mut out = vec![1, 0, 1, 1, 0, 0, 1, 0];
    out.extend(parameter(r, 0x0200, &[0, 0, 0, 9], false));
    out.extend(parameter(r, 0x0006, &[0, 0, 0, 1], false));
    let value = r.octets(LABEL + 208);
    out.extend(parameter(r, PROTOCOL_DATA, &value, false));
    out.extend(parameter(r, 0x0013, &[0, 0, 0, 3], false));
    assert_eq!(out.len(), 256);
    out
}

/// A message of so many parameters with a tag, each with a value of so many octets.
fn message(r: &mut Random, (class, msg_type): (u8, u8), tag: u16, count: usize, length: usize) -> Vec<u8> {
    let mut out = vec![1, 0, class, msg_type, 0, 0, 0, 0];
    for _ in 0..count {
        let value = r.octets(length);
        out.extend(parameter(r, tag, &value, false));
    }
    out
}

/// A CLDT of so many Data.
fn many(r: &mut Random, count: usize, length: usize) -> Vec<u8> {
    message(r, (7, 1), 0x010B, count, length)
}

/// The flat list of a message's parameters.
fn flat(message: &[u8]) -> Vec<u8> {
    let mut list = Vec::new();
    for p in walk(&message[8..], 8).0 {
        push_flat(&mut list, p.tag, p.value);
    }
    list
}

/// The Rust's reading of a message and its addresses.
fn read(input: &[u8]) -> usize {
    let message = SuaMessage::decode(input).expect("it is read");
    let addresses = message.parameters.iter().filter(|p| p.tag == 0x0102 || p.tag == 0x0103);
    let read: Vec<SuaAddress> = addresses.map(|p| SuaAddress::decode(&p.value).expect("it is read")).collect();
    black_box(&read);
    message.parameters.len() + read.len()
}

/// Nanoseconds of one call: the best of several runs, the two taken in turns.
fn times(mut a: impl FnMut() -> usize, mut b: impl FnMut() -> usize) -> [f64; 2] {
    let mut best = [f64::MAX; 2];
    let run = |f: &mut dyn FnMut() -> usize, rounds: u32| {
        let began = Instant::now();
        for _ in 0..rounds {
            black_box(f());
        }
        began.elapsed().as_nanos() as f64 / f64::from(rounds)
    };
    let rounds = (4_000_000.0 / run(&mut a, 3)).clamp(3.0, 100_000.0) as u32;
    for _ in 0..25 {
        best[0] = best[0].min(run(&mut a, rounds));
        best[1] = best[1].min(run(&mut b, rounds));
    }
    best
}

fn row(case: &str, call: &str, octets: usize, [rust, ours]: [f64; 2]) {
    println!("| {case} | {call} | {octets} | {rust:.0} | {ours:.0} | {:.1} | {:.3} |", rust / ours, ours / octets as f64);
}

/// Prints the table.
pub fn bench() -> bool {
    let mut r = Random::new(1);
    let cases = [
        ("CLDT, two titled addresses, 140 octets of data", cldt(&mut r)),
        ("1,000 parameters of 4 octets", many(&mut r, 1_000, 4)),
        ("15 parameters of 65,000 octets", many(&mut r, 15, 65_000)),
        ("131,000 parameters of 4 octets", many(&mut r, 131_000, 4)),
    ];
    println!("| message | call | octets | Rust, ns | port, ns | ratio | port, ns an octet |");
    println!("|---|---|---:|---:|---:|---:|---:|");
    for (case, input) in &cases {
        let mut out = vec![0u8; 3 * input.len()];
        let mut report = [0u64; 4];
        let octets = input.len();
        let settled = times(
            || form(input).expect("it has a form").len(),
            || Entry::Settle.call(Family::Sua, input, &mut out, &mut report) as usize,
        );
        row(case, "settle", octets, settled);
        let taken = times(|| read(input), || Entry::Read.call(Family::Sua, input, &mut out, &mut report) as usize);
        row(case, "read", octets, taken);
        let message = SuaMessage::decode(input).expect("it is read");
        let list = flat(input);
        let encoded =
            times(|| message.encode().len(), || Entry::Encode(7, 1).call(Family::Sua, &list, &mut out, &mut report) as usize);
        row(case, "encode", octets, encoded);
    }
    families(&mut r, &cases[0].1);
    tallied(&cases[0].1);
    converted(&mut r);
    true
}

/// A call of an entry that accepts the input, to be done again and again.
fn again(family: Family, entry: Entry, input: &[u8]) -> impl FnMut() -> usize + '_ {
    let (mut out, mut report) = (vec![0u8; 3 * input.len()], [0u64; 4]);
    assert_eq!(entry.call(family, input, &mut out, &mut report), 0);
    move || entry.call(family, input, &mut out, &mut report) as usize
}

/// Prints the times of the entries for M3UA beside those for SUA, each on a message of its own family, both of one size.
fn families(r: &mut Random, cldt: &[u8]) {
    let one = (cldt.to_vec(), data(r));
    let mut both = |count, length, tag| (many(r, count, length), message(r, DATA, tag, count, length));
    let cases = [
        ("the CLDT, and DATA with one Protocol Data", one),
        ("1,000 parameters of 4 octets", both(1_000, 4, 0x0004)),
        ("131,000 parameters of 4 octets", both(131_000, 4, 0x0004)),
        ("1,000 parameters of 12 octets, M3UA's all Protocol Data", both(1_000, LABEL, PROTOCOL_DATA)),
        ("65,000 parameters of 12 octets, M3UA's all Protocol Data", both(65_000, LABEL, PROTOCOL_DATA)),
    ];
    println!("\n| message of SUA and of M3UA | call | octets | SUA, ns | M3UA, ns | M3UA / SUA | M3UA, ns an octet |");
    println!("|---|---|---:|---:|---:|---:|---:|");
    for (case, (sua, m3ua)) in &cases {
        let octets = sua.len();
        assert_eq!(octets, m3ua.len());
        let lists = [flat(sua), flat(m3ua)];
        for (call, [one, other], [of_sua, of_m3ua]) in [
            ("settle", [Entry::Settle; 2], [sua, m3ua]),
            ("read", [Entry::Read; 2], [sua, m3ua]),
            ("encode", [Entry::Encode(7, 1), Entry::Encode(DATA.0, DATA.1)], [&lists[0], &lists[1]]),
        ] {
            let [sua, m3ua] = times(again(Family::Sua, one, of_sua), again(Family::M3ua, other, of_m3ua));
            println!("| {case} | {call} | {octets} | {sua:.0} | {m3ua:.0} | {:.2} | {:.3} |", m3ua / sua, m3ua / octets as f64);
        }
    }
}

/// Prints the times of tally for the CLDT under several member lists, beside settle. A list of no members is refused at once, so
/// its row is the call alone. In the others the last member is that of the CLDT, and all begin alike.
fn tallied(input: &[u8]) {
    let whole = b"447712345678902".to_vec();
    let lists: [(&str, Vec<Vec<u8>>); 5] = [
        ("none", vec![]),
        ("1 of 5 digits", vec![whole[..5].to_vec()]),
        ("1 of 15 digits", vec![whole]),
        ("64 of 5 digits", (8..72).map(|n| format!("447{n:02}").into_bytes()).collect()),
        ("64 of 15 digits", (3..67).map(|n| format!("4477123456789{:02}", n % 64).into_bytes()).collect()),
    ];
    println!("\n| members, for the CLDT | settle, ns | tally, ns | ratio |");
    println!("|---|---:|---:|---:|");
    for (case, prefixes) in &lists {
        let list = List::of(prefixes);
        let Rows { mut messages, mut octets } = Rows::none(prefixes.len() + 2);
        let (mut out, mut report, mut other) = (vec![0u8; input.len()], [0u64; 4], [0u64; 4]);
        let [settled, tallied] = times(
            || Entry::Settle.call(Family::Sua, input, &mut out, &mut report) as usize,
            || call(&list, input, &mut messages, &mut octets, &mut other) as usize,
        );
        assert_eq!(other, if prefixes.is_empty() { [16, 0, 0, 0] } else { [0, prefixes.len() as u64 - 1, 0, 0] });
        println!("| {case} | {settled:.0} | {tallied:.0} | {:.1} |", tallied / settled);
    }
}

/// Prints the times of an address to and from SCCP, beside the Rust's reading of its value.
fn converted(r: &mut Random) {
    let mut long = vec![0, 1, 0, 4];
    long.extend(parameter(r, 0x8001, &[&[0, 0, 0, 4, 255, 0, 1, 4][..], &[0x21; 127], &[1]].concat(), false));
    let mut routed = vec![0, 2, 0, 3];
    routed.extend(parameter(r, 0x8002, &[0, 0, 0x12, 0x34], false));
    routed.extend(parameter(r, 0x8003, &[0, 0, 0, 8], false));
    let cases = [("SSN and point code", routed), ("15 digits and SSN", address(r, 1)), ("255 digits", long)];
    println!("\n| address | Rust's reading, ns | to SCCP, ns | from SCCP, ns |");
    println!("|---|---:|---:|---:|");
    for (case, value) in &cases {
        let (mut party, mut back) = ([0u8; 135], [0u8; 160]);
        let [read, to] = times(
            || black_box(SuaAddress::decode(value).expect("it is read")).other.len(),
            || navrost::to_sccp(value, &mut party).expect("it converts"),
        );
        let n = navrost::to_sccp(value, &mut party).expect("it converts");
        let [_, from] = times(|| 0, || navrost::from_sccp(&party[..n], &mut back).expect("it converts"));
        assert_eq!(&back[..value.len()], value);
        println!("| {case} | {read:.0} | {to:.0} | {from:.0} |");
    }
}
