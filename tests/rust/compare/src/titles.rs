//! The rounds of crates/rounds that write digits, alone, in a title and in an address, done by the Rust: from the same standard
//! input, with the same sum, to be timed from outside.

use std::hint::black_box;
use std::io::Read;
use sua::address::{GlobalTitle, SuaAddress};
use sua::bcd::encode_gt_digits;
use sua::error::SuaError;

/// Three times a sum, and a number, modulo 2^64.
fn add(sum: u64, n: u64) -> u64 {
    sum.wrapping_mul(3).wrapping_add(n)
}

/// A refusal's number, beyond those of all values, and its value.
fn refused(sum: u64, number: u64, value: u64) -> u64 {
    add(add(add(sum, 5_000_000_001), number), value)
}

/// The answer of a round, and the octet of the output at a place that is another in each round; 0 behind what was written.
fn answered(sum: u64, i: u32, room: usize, answer: Result<Vec<u8>, SuaError>) -> u64 {
    match answer {
        Ok(octets) if octets.len() <= room => {
            let octet = octets.get(i as usize % 255).copied().unwrap_or(0);
            add(add(sum, octets.len() as u64), octet.into())
        }
        Ok(octets) => add(refused(sum, 14, octets.len() as u64), 0),
        Err(SuaError::InvalidBcdDigit(digit)) => add(refused(sum, 9, digit.into()), 0),
        Err(other) => panic!("{other}"),
    }
}

/// The sum of so many rounds of a work.
fn rounds(count: u32, room: usize, mut work: impl FnMut(u32) -> Result<Vec<u8>, SuaError>) -> u64 {
    (0..count).fold(0, |sum, i| answered(sum, i, room, black_box(work(i))))
}

/// The sum of what standard input asks for. A title's translation type and an address's SSN are altered in each round.
fn sum(work: u8, count: u32, room: usize, digits: &str) -> u64 {
    let mut title = GlobalTitle::e164(digits);
    let mut address = SuaAddress::with_gt(title.clone(), Some(8));
    match work {
        3 => rounds(count, room, |_| encode_gt_digits(black_box(digits))),
        4 => rounds(count, room, |i| {
            title.translation_type = i as u8;
            black_box(&title).encode()
        }),
        5 => rounds(count, room, |i| {
            address.ssn = Some(i as u8);
            black_box(&address).encode()
        }),
        _ => (0..count).fold(0, |sum, _| add(add(sum, black_box(digits.len() as u64 + 1)), 0)),
    }
}

/// Prints the sum; false where standard input is not a work, a number of rounds, a room and at most 255 digits.
pub fn titles() -> bool {
    let mut input = Vec::new();
    std::io::stdin().read_to_end(&mut input).expect("standard input is read");
    let [work, a, b, c, d, room, digits @ ..] = &input[..] else {
        return false;
    };
    let Ok(digits) = std::str::from_utf8(digits) else {
        return false;
    };
    let right = digits.len() <= 255;
    if right {
        println!("{}", sum(*work, u32::from_be_bytes([*a, *b, *c, *d]), usize::from(*room), digits));
    }
    right
}
