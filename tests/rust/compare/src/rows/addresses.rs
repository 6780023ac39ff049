//! Addresses.

use super::*;

/// An address with one other, of 0, and nothing else.
fn bare(other: usize) -> SuaAddress {
    SuaAddress { include_pc: false, include_ssn: false, point_code: None, ssn: None, ..plain(&[other]) }
}

/// The same in a call.
const BARE: &str = "2 0 0 0 0 0 0 0 0 0 0 0 0 0 0 1";

/// An address value that is read: as it is written again, and as it is.
fn read(input: &'static str, value: &'static str, said: &'static str) -> Row {
    row(input, move || SuaAddress::decode(&octets(value)).map(|address| (address.encode(), address)), said)
}

/// An address value that is refused.
fn refused(input: &'static str, value: &'static str, refusal: &'static str) -> Row {
    row(input, move || SuaAddress::decode(&octets(value)), refusal)
        .port(format!("address_decode 0 0 0 {value}"), nothing(&refusal["refused ".len()..]))
        .port(format!("rewritten_length 258 {value}"), refusal)
}

impl Row {
    /// What the port reads from an address value, and what it writes again.
    fn address(self, value: &str, read: String, written: &str) -> Row {
        let length = octets(written).len();
        self.port(format!("address_decode 0 0 0 {value}"), read)
            .port(format!("rewrite 258 {length} {value}"), format!("ok {length} {written}"))
    }
}

pub fn rows() -> Vec<Row> {
    vec![
        read("routing indicator 0 (`00 00 00 00`)", "x00000000", "x00000000; routing 0, indicator 0, others 0")
            .address("x00000000", taken("0 0 0 0", NO_TITLE, "0 0 0 0 0"), "x00000000")
            .port("routing_indicator 0", "ok 0"),
        refused("routing indicator 5 (`00 05 00 00`)", "x00050000", "refused 8 5").port("routing_indicator 5", "refused 8 5"),
        read(
            "reserved bits of the address indicator (`00 01 FF F8`)",
            "x0001fff8",
            "x00010000; routing 1, indicator 0, others 0",
        )
        .address("x0001fff8", taken("1 0 0 0", NO_TITLE, "0 0 0 0 0"), "x00010000"),
        read("an include bit without its part (`00 01 00 07`)", "x00010007", "x00010007; routing 1, indicator 7, others 0")
            .address("x00010007", taken("1 1 1 1", NO_TITLE, "0 0 0 0 0"), "x00010007"),
        read("no part for the routing indicator (`00 01 00 00`)", "x00010000", "x00010000; routing 1, indicator 0, others 0")
            .address("x00010000", taken("1 0 0 0", NO_TITLE, "0 0 0 0 0"), "x00010000"),
        read(
            "two SSNs, 6 and 8 (S10)",
            "x0002000780030008000000068003000800000008",
            "x000200078003000800000008; routing 2, indicator 7, ssn 8, others 0",
        )
        .address(
            "x0002000780030008000000068003000800000008",
            taken("2 1 1 1", NO_TITLE, "0 0 1 8 0"),
            "x000200078003000800000008",
        ),
        row(
            "1,048,577 octets, read as an address (15 others of 65,531 octets, one of 65,529)",
            || SuaAddress::decode(&octets(&long_address())),
            "routing 2, indicator 0, others 16",
        )
        .port(format!("address_decode 0 0 0 {}", long_address()), nothing("12 1048577"))
        .port(format!("rewritten_length 258 {}", long_address()), "refused 12 1048577"),
        row("1,048,577 octets of 0, read as a title", || GlobalTitle::decode(&vec![0; 1_048_577]), "title 0 ''")
            .port("title_decode x00*1048577", "refused 12 1048577 0 0 0 0 0 0 x00*255"),
        read(
            "a point code of five octets (`80 02 00 09 00 00 01 02 03`)",
            "x00020000800200090000010203",
            "x000200008002000800000102; routing 2, indicator 0, code 0x0102, others 0",
        )
        .address("x00020000800200090000010203", taken("2 0 0 0", NO_TITLE, "1 258 0 0 0"), "x000200008002000800000102"),
        refused(
            "a point code of three octets (`80 02 00 07 00 00 01`)",
            "x0002000080020007000001",
            "refused 6 32770 4 3",
        ),
        refused(
            "a point code of no octets before a good one (`80 02 00 04 80 02 00 08 00 00 00 01`)",
            "x00020000800200048002000800000001",
            "refused 6 32770 4 0",
        ),
        read(
            "an SSN of five octets (`80 03 00 09 00 00 00 08 09`)",
            "x00020000800300090000000809",
            "x000200008003000800000008; routing 2, indicator 0, ssn 8, others 0",
        )
        .address("x00020000800300090000000809", taken("2 0 0 0", NO_TITLE, "0 0 1 8 0"), "x000200008003000800000008"),
        refused("an SSN of three octets (`80 03 00 07 00 00 00`)", "x0002000080030007000000", "refused 6 32771 4 3"),
        refused(
            "an SSN of no octets before a good one (`80 03 00 04 80 03 00 08 00 00 00 08`)",
            "x00020000800300048003000800000008",
            "refused 6 32771 4 0",
        ),
        read(
            "reserved octets of a title or an SSN that are not 0 (`80 01 00 0C FF FF FF 04 00 00 01 04 80 03 00 08 FF FF FF 08`)",
            "x000200008001000cffffff040000010480030008ffffff08",
            "x000200008001000c00000004000001048003000800000008; routing 2, indicator 0, title 4 '', ssn 8, others 0",
        )
        .address(
            "x000200008001000cffffff040000010480030008ffffff08",
            taken("2 0 0 0", "1 4 0 1 4 0 0 x00*255", "0 0 1 8 0"),
            "x000200008001000c00000004000001048003000800000008",
        ),
        refused(
            "a title of seven octets (`80 01 00 0B 00 00 00 04 00 00 01`)",
            "x000200008001000b00000004000001",
            "refused 1 8 7",
        )
        .port("title_decode x00000004000001", "refused 1 8 7 0 0 0 0 0 0 x00*255"),
        read(
            "a title indicator of 5 (`80 01 00 0C 00 00 00 05 00 00 01 04`)",
            "x000200008001000c0000000500000104",
            "x000200008001000c0000000500000104; routing 2, indicator 0, title 5 '', others 0",
        )
        .address(
            "x000200008001000c0000000500000104",
            taken("2 0 0 0", "1 5 0 1 4 0 0 x00*255", "0 0 0 0 0"),
            "x000200008001000c0000000500000104",
        ),
        read(
            "a title that declares 9 digits and brings 2, written again (`80 01 00 0D 00 00 00 04 09 00 01 04 21`)",
            "x000200008001000d000000040900010421",
            "x000200008001000d000000040200010421000000; routing 2, indicator 0, title 4 '12', others 0",
        )
        .address(
            "x000200008001000d000000040900010421",
            taken("2 0 0 0", "1 4 0 1 4 2 7 x3132+00*253", "0 0 0 0 0"),
            "x000200008001000d000000040200010421000000",
        ),
        row(
            "an other sub-parameter of 65,532 octets, written",
            || bare(65_532).encode().map(|written| cut(&written, 4)),
            "65540 octets, length 0",
        )
        .port(format!("address_encode {BARE} 2 1 32773 1 0 1 65532 x x00*65532"), "refused 10 32773 65532 xeeee"),
        row("a title of 256 digits, written from its record", many_digits, "128 octets, count 0")
            .port("title_encode 4 0 1 4 256 0 2 x31*255", "refused 11 256 xeeee")
            .port("e164 256 2 x31*255", "refused 11 256 xeeee")
            .port("with_gt 4 0 1 4 256 0 0 0 2 x31*255", "refused 11 256 xeeee"),
        row(
            "a table of no rows, for one other (`00 01 00 00 80 05 00 04`)",
            || SuaAddress::decode(&octets("x0001000080050004")),
            "routing 1, indicator 0, others 1",
        )
        .port("address_decode 0 0 0 x0001000080050004", nothing("13 1"))
        .port("address_decode 1 1 1 x0001000080050004", format!("ok 1 0 0 0 {NO_TITLE} 0 0 0 0 1 t32773 s8 l0")),
        row(
            "an other whose record ends behind the values (start 0, length 1, no values)",
            || bare(1).encode(),
            "x000200008005000500000000",
        )
        .port(format!("address_encode {BARE} 2 1 32773 1 0 1 1 x x"), "refused 15 xeeee"),
        row(
            "an address value of 65,532 octets (one other of 65,524), written",
            || bare(65_524).encode().map(|written| format!("{} octets", written.len())),
            "65532 octets",
        )
        .port(format!("address_encode {BARE} 2 1 32773 1 0 1 65524 x x00*65524"), "refused 10 0 65532 xeeee")
        .port("rewrite 258 2 x000200008005fff8+00*65524", "refused 10 258 65532 xeeee"),
    ]
}
