//! The worked messages of document 01 that are not proved.

use super::*;
use sua::message::pack_affected_point_codes;

/// An address value whose one sub-parameter has a length, which is given in hexadecimal too.
fn value(length: usize, hexadecimal: &str) -> String {
    format!("000200008005{hexadecimal}+41*{}", length - 4)
}

/// How many octets the Rust writes for an address value that it read.
fn again(value: &str) -> Result<String, SuaError> {
    let read = octets(&format!("x{value}"));
    Ok(format!("{} octets from {}", SuaAddress::decode(&read)?.encode()?.len(), read.len()))
}

pub fn rows() -> Vec<Row> {
    let (above, within) = (value(65_527, "fff7"), value(65_524, "fff4"));
    let (above_read, within_read) = (above.clone(), within.clone());
    let mut refused = row("S13, 65,527 in 65,531", move || again(&above_read), "65532 octets from 65531");
    let mut accepted = row("S13, 65,524 in 65,528", move || again(&within_read), "65528 octets from 65528");
    for (tag, hexadecimal) in [(258, "0102"), (259, "0103")] {
        refused = refused
            .port(format!("rewrite {tag} 2 x{above}"), format!("refused 10 {tag} 65532 xeeee"))
            .port(format!("rewritten_length {tag} x{above}"), format!("refused 10 {tag} 65532"))
            .port(format!("settle 2 x0100070100000000{hexadecimal}ffff{above}"), format!("refused 10 {tag} 65532 xeeee"))
            .port(format!("settled_length x0100070100000000{hexadecimal}ffff{above}"), format!("refused 10 {tag} 65532"));
        accepted = accepted
            .port(format!("rewrite {tag} 65528 x{within}"), format!("ok 65528 x{within}"))
            .port(
                format!("settle 65540 x0100070100000000{hexadecimal}fffc{within}"),
                format!("ok 65540 x0100070100010004{hexadecimal}fffc{within}"),
            )
            .port(format!("settled_length x0100070100000000{hexadecimal}fffc{within}"), "ok 65540");
    }
    let codes = row(
        "S14",
        || (pack_affected_point_codes(&[0x01_2345]), pack_affected_point_codes(&[0xff01_2345])),
        "x00012345; x00012345",
    )
    .port("pack_affected_point_codes 4 1 74565", "ok 4 x00012345")
    .port("pack_affected_point_codes 4 1 4278264645", "ok 4 x00012345");
    vec![refused, accepted, codes]
}
