//! Accessors.

use super::*;

pub fn rows() -> Vec<Row> {
    let mut outside = row(
        "any record that ends behind the values, asked for or not (tag 4, start 0, length 1, no values)",
        || holding(&[(4, "x41")]).encode(),
        "x01000701000000100004000541000000",
    );
    for name in ["routing_context", "sequence_control", "protocol_class", "ss7_hop_count", "sccp_cause"] {
        outside = outside.port(format!("{name} 1 1 4 1 0 1 1 x"), "refused 15");
    }
    for name in ["source_address", "destination_address"] {
        outside = outside.port(format!("{name} 1 0 0 0 1 4 1 0 1 1 x"), nothing("15"));
    }
    vec![
        row(
            "a routing context of three octets before one of four (`01 02 03`, then `04 05 06 07`)",
            || holding(&[(6, "x010203"), (6, "x04050607")]).routing_context().map(|n| n.to_string()),
            "none",
        )
        .port("routing_context 2 2 6 6 2 0 3 2 3 4 x01020304050607", "none"),
        row(
            "a protocol class of five octets (`01 02 03 04 05`)",
            || holding(&[(0x0115, "x0102030405")]).protocol_class().map(|n| n.to_string()),
            "4",
        )
        .port("protocol_class 1 1 277 1 0 1 5 x0102030405", "ok 4"),
        row(
            "reserved octets that are not 0 (an SCCP cause `09 09 03 04`)",
            || holding(&[(0x0106, "x09090304")]).sccp_cause().map(|(kind, value)| format!("{kind} {value}")),
            "3 4",
        )
        .port("sccp_cause 1 1 262 1 0 1 4 x09090304", "ok 3 4"),
        row(
            "two parameters of data (`01`, then `02`)",
            || holding(&[(0x010b, "x01"), (0x010b, "x02")]).data().map(<[u8]>::to_vec),
            "x01",
        )
        .port("data 2 2 267 267 2 0 1 2 1 1 x0102", "ok 267 0 1 x01"),
        row(
            "a routing context of 1,048,577 octets (`01 02 03 04` and octets of 0)",
            || holding(&[(6, "x01020304+00*1048573")]).routing_context().map(|n| format!("{n:#010x}")),
            "0x01020304",
        )
        .port("routing_context 1 1 6 1 0 1 1048577 x01020304+00*1048573", "ok 16909060")
        .port("as_u32 x01020304+00*1048573", "refused 12 1048577"),
        row(
            "no source address, no destination address",
            || (holding(&[]).source_address(), holding(&[]).destination_address()),
            "refused 7 258; refused 7 259",
        )
        .port("source_address 0 0 0 0 0 0 0 x", nothing("7 258"))
        .port("destination_address 0 0 0 0 0 0 0 x", nothing("7 259")),
        row(
            "a source address of 1,048,577 octets (15 others of 65,531 octets, one of 65,529)",
            || holding(&[(0x0102, &long_address())]).source_address(),
            "routing 2, indicator 0, others 16",
        )
        .port(format!("source_address 1 0 0 0 1 258 1 0 1 1048577 {}", long_address()), nothing("12 1048577")),
        row(
            "a table of no rows, for an address with one other (`00 01 00 00 80 05 00 04`)",
            || holding(&[(0x0102, "x0001000080050004")]).source_address(),
            "routing 1, indicator 0, others 1",
        )
        .port("source_address 1 0 0 0 1 258 1 0 1 8 x0001000080050004", nothing("13 1"))
        .port("destination_address 1 0 0 0 1 259 1 0 1 8 x0001000080050004", nothing("13 1")),
        row("no data", || holding(&[]).data().map(<[u8]>::to_vec), "none").port("data 0 0 0 0 x", "none x"),
        outside
            .port("data 1 1 4 1 0 1 1 x", "refused 15 x")
            .port("affected_point_codes 1 1 1 4 1 0 1 1 x", "refused 15 c60000"),
    ]
}
