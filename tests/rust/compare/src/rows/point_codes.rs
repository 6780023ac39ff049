//! Point codes.

use super::*;
use sua::message::{pack_affected_point_codes, unpack_affected_point_codes};

/// Point codes in hexadecimal.
fn codes(codes: Vec<u32>) -> String {
    match &codes[..] {
        [one] => format!("1 code, {one:#08x}"),
        all => format!("{} codes", all.len()),
    }
}

pub fn rows() -> Vec<Row> {
    let read = |value: &'static str| move || codes(unpack_affected_point_codes(&octets(value)));
    vec![
        row("a mask that is not 0, read (`FF 01 23 45`)", read("xff012345"), "1 code, 0x012345")
            .port("unpack_affected_point_codes 2 xff012345", "ok 1 c74565,60000"),
        row("an unfinished group of four, read (`00 01 23 45 00 01`)", read("x000123450001"), "1 code, 0x012345")
            .port("unpack_affected_point_codes 2 x000123450001", "ok 1 c74565,60000"),
        row(
            "a first such parameter of one octet before one of four (`00`, then `00 01 23 45`)",
            || codes(holding(&[(0x0012, "x00"), (0x0012, "x00012345")]).affected_point_codes()),
            "0 codes",
        )
        .port("affected_point_codes 2 1 2 18 18 2 0 1 2 1 4 x0000012345", "ok 0 c60000"),
        row("no such parameter", || codes(holding(&[]).affected_point_codes()), "0 codes")
            .port("affected_point_codes 0 1 0 0 0 x", "ok 0 c60000"),
        row("a code above 24 bits, written (0xFF012345, S14)", || pack_affected_point_codes(&[0xff01_2345]), "x00012345")
            .port("pack_affected_point_codes 4 1 4278264645", "ok 4 x00012345"),
        row(
            "16,383 codes, written",
            || {
                let written = pack_affected_point_codes(&[1; 16_383]);
                (format!("{} octets", written.len()), cut(&Parameter::new(0x0012, written).encode(), 0))
            },
            "65532 octets; 65536 octets, length 0",
        )
        .port("pack_affected_point_codes 2 16383 1*16383", "refused 10 18 65532 xeeee"),
        row("1,048,577 octets of 0, read", read("x00*1048577"), "262144 codes")
            .port("unpack_affected_point_codes 0 x00*1048577", "refused 12 1048577 c")
            .port("affected_point_codes 1 0 1 18 1 0 1 1048577 x00*1048577", "refused 13 262144 c"),
        row("a table of no places, for one code (`00 00 00 01`)", read("x00000001"), "1 code, 0x000001")
            .port("unpack_affected_point_codes 0 x00000001", "refused 13 1 c")
            .port("affected_point_codes 1 0 1 18 1 0 1 4 x00000001", "refused 13 1 c"),
        row(
            "an output shorter than what is written (one code into three octets)",
            || format!("{} octets", pack_affected_point_codes(&[1]).len()),
            "4 octets",
        )
        .port("pack_affected_point_codes 3 1 1", "refused 14 4 xeeeeee"),
    ]
}
