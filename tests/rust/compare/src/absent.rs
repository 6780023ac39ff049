//! How many declared digits of a title are absent (document 02, CR 7), which the Rust does not tell: a plain reading of octets, and
//! what answers show.

use crate::calls::{BETWEEN, SCREENED};

/// How many of the declared digits octets do not have. Two digits stand in an octet.
pub fn of_digits(octets: &[u8], declared: u8) -> usize {
    (0..usize::from(declared)).filter(|digit| octets.get(digit / 2).is_none()).count()
}

/// The same of a title's value, which is not refused: three reserved octets, indicator, count of digits, three descriptors, digits.
pub fn of_title(value: &[u8]) -> usize {
    of_digits(&value[8..], value[4])
}

/// The values of the titles of an address's value, which is not refused.
pub fn titles(value: &[u8]) -> Vec<&[u8]> {
    let mut titles = Vec::new();
    let mut left = &value[4..];
    while let [tag_high, tag_low, high, low, behind @ ..] = left {
        let length = 256 * usize::from(*high) + usize::from(*low) - 4;
        if [*tag_high, *tag_low] == [0x80, 0x01] {
            titles.push(&behind[..length]);
        }
        left = behind.get((length + 3) / 4 * 4..).unwrap_or(&[]);
    }
    titles
}

/// The same of an address's value, which is not refused: of its last title; 0 where it has none.
pub fn of_address(value: &[u8]) -> usize {
    titles(value).last().map_or(0, |title| of_title(title))
}

/// The calls whose answers show the number.
const SHOWN: [&str; 6] =
    ["decode_gt_digits", "title_decode", "address_decode", "source_address", "destination_address", "screen"];

/// How many digits each title in an answer has, and how many are absent; nothing where none is absent.
pub fn shown(name: &str, answer: &str) -> Vec<(usize, usize)> {
    let place = match name {
        "decode_gt_digits" => 1,
        "title_decode" => 5,
        "address_decode" | "source_address" | "destination_address" => 10,
        "screen" => return answer.split(BETWEEN).zip(SCREENED).flat_map(|(part, accessor)| shown(accessor, part)).collect(),
        _ => return Vec::new(),
    };
    let words: Vec<&str> = answer.split(' ').collect();
    let number = |i: usize| words[i].parse().expect("a number");
    match words[0] {
        "ok" if number(place + 1) > 0 => vec![(number(place), number(place + 1))],
        _ => Vec::new(),
    }
}

/// The kinds of answers with absent digits: by each call, of an odd and of an even declared count.
pub fn kinds() -> Vec<String> {
    SHOWN.iter().flat_map(|name| [kind(name, (1, 0)), kind(name, (0, 2))]).collect()
}

/// The kind of a call's answer by the digits there and those absent.
pub fn kind(name: &str, (count, absent): (usize, usize)) -> String {
    let parity = if (count + absent) % 2 == 1 { "odd" } else { "even" };
    format!("{name} {parity}")
}
