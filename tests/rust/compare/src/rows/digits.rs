//! Digits.

use super::*;
use sua::bcd::{decode_gt_digits, encode_gt_digits};

/// Octets read with a count: the digits.
fn read(input: &'static str, word: &'static str, count: u8, said: &'static str, answer: &str) -> Row {
    row(input, move || decode_gt_digits(&octets(word), count.into()), said)
        .port(format!("decode_gt_digits {count} {word}"), answer)
}

pub fn rows() -> Vec<Row> {
    vec![
        read("half octet 10, read (octet `0A`, count 1)", "x0a", 1, "*", "ok 1 0 x2a+00*254"),
        read("half octet 11, read (`0B`, 1)", "x0b", 1, "#", "ok 1 0 x23+00*254"),
        read("half octet 12, read (`0C`, 1)", "x0c", 1, "a", "ok 1 0 x61+00*254"),
        row(
            "half octets 13 and 14, read (`0D`, 1; `0E`, 1)",
            || (decode_gt_digits(&[0x0d], 1), decode_gt_digits(&[0x0e], 1)),
            "b; c",
        )
        .port("decode_gt_digits 1 x0d", "ok 1 0 x62+00*254")
        .port("decode_gt_digits 1 x0e", "ok 1 0 x63+00*254"),
        read("half octet 15, read (`0F`, 1)", "x0f", 1, "?", "ok 1 0 x3f+00*254"),
        row("`?`, written", || encode_gt_digits("?"), "refused 9 63")
            .port("encode_gt_digits 0 x3f", "refused 9 63 x")
            .port("gt_digits_length x3f", "refused 9 63"),
        row("a capital, written (`A`)", || encode_gt_digits("A"), "x0c").port("encode_gt_digits 2 x41", "ok 1 x0cee"),
        read("a count above the digits there (no octets, count 1)", "x", 1, "", "ok 0 1 x00*255"),
        read("an odd last high half, read (`F1`, 1)", "xf1", 1, "1", "ok 1 0 x31+00*254"),
        row("256 digits, written", many_digits, "128 octets, count 0")
            .port("encode_gt_digits 2 x31*256", "refused 11 256 xeeee")
            .port("gt_digits_length x31*256", "refused 11 256"),
        read("1,048,577 octets of 0, read with count 1", "x00*1048577", 1, "0", "refused 12 1048577 0 x00*255"),
        row(
            "an output shorter than what is written (`1` into no octets)",
            || encode_gt_digits("1").map(|written| format!("{} octet", written.len())),
            "1 octet",
        )
        .port("encode_gt_digits 0 x31", "refused 14 1 x"),
    ]
}
