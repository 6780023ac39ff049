//! The fixed list of calls that crates/replay runs in the gate, with the answers recorded from the Rust.

use crate::calls::{answer, Call};
use crate::generate::{call, refusals, Sizes, CALLS};
use crate::random::Random;
use crate::replay::marked;
use std::collections::BTreeSet;

/// Calls of each function, at least, beside the worked ones.
const EACH: usize = 40;
/// The same of `screen`, whose lines are long.
const SCREENS: usize = 16;
/// The characters of a call and its answer, at most.
const SHORT: usize = 900;
/// The same, where they show a refusal that nothing shorter showed.
const LONG: usize = 60_000;

/// Absent digits: one of three; all of one and of 255; none of four; five of a title's nine; and of addresses with a title that ran
/// short and one that did not, of which the last holds.
const SHORT_TITLES: [&str; 7] = [
    "decode_gt_digits 3 x21",
    "decode_gt_digits 1 x",
    "decode_gt_digits 255 x",
    "decode_gt_digits 4 x2143",
    "title_decode x00000004090001042143",
    "address_decode 0 0 0 x000100048001000d0000000403000104210000008001000e000000040400010421430000",
    "address_decode 0 0 0 x000100048001000e0000000404000104214300008001000d000000040300010421000000",
];

/// Lines that are not spelt as docs/CALLS.md has it, beside the calls that they are read as: a wrong digit counts as 0, each space
/// ends a word, a number that is too large stops at the last digit, and from the seventh on octet strings overwrite the first.
const MISSPELT: [(&[u8], &str); 11] = [
    (b"wire_length 4 1a", "wire_length 4 10"),
    (b"wire_length  4 5", "wire_length 0 4"),
    (b"wire_length 4\t5", "wire_length 405 0"),
    (b"wire_length 4 5\r", "wire_length 4 50"),
    (b"wire_length 4 -5", "wire_length 4 5"),
    (b"wire_length 4 18446744073709551620", "wire_length 4 18446744073709551610"),
    (b"as_u32 x0000000A", "as_u32 x00000000"),
    (b"as_u32 x1*4", "as_u32 x10101010"),
    (b"as_u32 x000000g5", "as_u32 x00000005"),
    (b"as_u32 x00000005 \xff", "as_u32 x00000005"),
    (b"as_u32 x00000005 x x x x x x07", "as_u32 x07000005"),
];

/// Document 01's worked messages, pairs and indicators in full, titles that ran short, and routing contexts in a set.
fn worked() -> Vec<String> {
    let asp = "0100030100000008";
    let messages = [
        asp.to_string(),
        "01ff030100000000".into(),
        format!("{asp}aabbcc"),
        format!("{asp}00040003"),
        format!("{asp}0004000541"),
        format!("{asp}0004000641"),
        "0200010100000008".into(),
        "0100010100000008".into(),
        "01000301000000".into(),
        "0100070100000000010200180002000780030008000000068003000800000008".into(),
        "01000701000000000103001800010004800100 0e0000000403000104 21f3aabb".replace(' ', ""),
        "01000701000000000103001800010004800100 0e0000000404000104 21f30000".replace(' ', ""),
        String::new(),
    ];
    let mut lines = Vec::new();
    for message in messages {
        lines.push(format!("settle 64 x{message}"));
        lines.push(format!("settled_length x{message}"));
        lines.push(format!("message_decode 4 4 4 x{message}"));
        lines.push(format!("read 80 x{message}"));
    }
    for line in [
        "address_decode 2 2 2 x0002000780030008000000068003000800000008",
        "decode_gt_digits 3 x21f3",
        "decode_gt_digits 4 x21f3",
        "decode_gt_digits 9 x2103",
        "encode_gt_digits 4 x3141",
        "encode_gt_digits 4 x3135353530313432",
        "encode_gt_digits 4 x",
        "pack_affected_point_codes 8 2 74565 4278264645",
        // S13: an address that would take 65,532 octets written again, and one that takes 65,528.
        "rewrite 258 65536 x000200008005fff7+42*65523",
        "rewrite 258 65536 x000200008005fff4+42*65520",
        "settle 65600 x010007010000000001 02ffff000200008005fff7+42*65523",
        "settle 65600 x010007010000000001 02fffc000200008005fff4+42*65520",
    ] {
        lines.push(line.replacen("01 02", "0102", 1));
    }
    lines.extend(SHORT_TITLES.map(String::from));
    // Contexts 7 and 9: both in the set, one, both by their low halves alone; an unfinished group; 7 by itself; no octets.
    for (length, set) in [(8, "2 9 7"), (8, "1 7"), (8, "1 9"), (8, "2 65543 65545"), (7, "2 7 9"), (4, "1 7"), (0, "1 7")] {
        lines.push(format!("contexts_in 1 1 6 1 0 1 {length} {set} x0000000700000009"));
    }
    for class in 0..=11 {
        for msg_type in 0..=12 {
            lines.push(format!("class_type {class} {msg_type}"));
        }
        lines.push(format!("class {class}"));
    }
    for n in [0, 1, 2, 3, 4, 5, 255, 65535] {
        lines.push(format!("routing_indicator {n}"));
    }
    lines
}

/// Random calls of a function: short ones, half of them accepted, and for each of its refusals one at the least.
fn chosen(name: &str, numbers: &[u64], seed: u64) -> Vec<(String, String)> {
    let mut pairs = Vec::new();
    let mut missing: BTreeSet<u64> = numbers.iter().copied().collect();
    let each = if name == "screen" { SCREENS } else { EACH };
    let mut refused = 0;
    for i in 0.. {
        assert!(i < 200_000, "{name} never refuses as {missing:?}");
        let mut r = Random::new(seed + i);
        let call = call(&mut r, name, Sizes { large_once_in: if i % 4 == 0 { 8 } else { 200 } });
        let given = answer(&call);
        let line = marked(&call, &given);
        let size = line.len() + given.len();
        let numbers = refusals(name, &given);
        let accepted = numbers == [0];
        let wanted = numbers.iter().any(|n| missing.contains(n)) && (size <= SHORT || (i > 2_000 && size < LONG));
        let more = size <= SHORT && pairs.len() < each && (accepted || refused < each / 2);
        if wanted || more {
            missing.retain(|n| !numbers.contains(n));
            refused += usize::from(!accepted);
            pairs.push((line, given));
        }
        if (pairs.len() >= each || i > 5_000) && missing.is_empty() {
            return pairs;
        }
    }
    pairs
}

/// Writes the list and its answers as FOLDER/stdin and FOLDER/stdout.
pub fn record(folder: &str) -> bool {
    let mut pairs: Vec<(String, String)> = worked()
        .iter()
        .map(|line| {
            let call = Call::parse(line);
            let given = answer(&call);
            (marked(&call, &given), given)
        })
        .collect();
    for (i, (name, numbers)) in CALLS.iter().enumerate() {
        pairs.extend(chosen(name, numbers, 1_000_000 * (i as u64 + 1)));
    }
    let text = |lines: Vec<&String>| lines.iter().fold(String::new(), |text, line| text + line + "\n");
    let mut stdin = text(pairs.iter().map(|p| &p.0).collect()).into_bytes();
    let mut stdout = text(pairs.iter().map(|p| &p.1).collect());
    for (line, call) in MISSPELT {
        stdin.extend_from_slice(line);
        stdin.push(b'\n');
        stdout += &(answer(&Call::parse(call)) + "\n");
    }
    println!("{} calls of {} functions: {} and {} characters", pairs.len() + MISSPELT.len(), CALLS.len(), stdin.len(), stdout.len());
    std::fs::write(format!("{folder}/stdin"), stdin).is_ok() && std::fs::write(format!("{folder}/stdout"), stdout).is_ok()
}
