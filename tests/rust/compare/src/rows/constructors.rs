//! Constructors.

use super::*;

/// A call of `cldt` with a buffer of two octets: source, destination, the source's table, and the octet strings.
fn cldt(source: &str, destination: &str, table: &str, octets: &str) -> String {
    format!("cldt 0 0 0 0 0 2 {source} {destination} {table} 0 0 0 {octets}")
}

/// What the Rust writes for it.
fn made(source: &SuaAddress, destination: &SuaAddress, data: usize) -> Result<Vec<u8>, SuaError> {
    Ok(SuaMessage::cldt(0, 0, source, destination, 0, None, vec![0; data])?.encode())
}

/// Where the source and the data stand in such a message.
const SOURCE: usize = 24;
const DATA: usize = 80;

fn titled(digits: &str) -> SuaAddress {
    SuaAddress::with_gt(GlobalTitle::e164(digits), None)
}

/// An address in a call: a title of so many digits.
fn title(count: usize) -> String {
    format!("1 1 0 0 1 4 0 1 4 {count} 0 0 0 0 0 0")
}

/// `with_ssn_pc(8, 1)` as a parameter, without its tag.
const PLAIN_WRITTEN: &str = "00180002000380020008000000018003000800000008";

/// What the Rust writes as class and hop counter.
fn class_and_hop(class: u8, hop: u8) -> Result<String, SuaError> {
    let written = SuaMessage::cldt(0, class, &plain(&[]), &plain(&[]), 0, Some(hop), vec![])?.encode();
    Ok(format!("{} octets, class {}, hop {}", written.len(), written[23], written[87]))
}

/// The same from the port.
fn class_and_hop_written(row: Row, class: u8, hop: u8) -> Row {
    let front = "010007010000005c0006000800000000";
    let addresses = format!("0102{PLAIN_WRITTEN}0103{PLAIN_WRITTEN}");
    row.port(
        format!("cldt 0 {class} 0 1 {hop} 92 {PLAIN} {PLAIN} 0 0 0 0 0 0 x x x x x"),
        format!("ok 92 x{front}01150008000000{class:02x}{addresses}011600080000000001010008000000{hop:02x}010b0004"),
    )
}

pub fn rows() -> Vec<Row> {
    let capital = format!(
        "x010007010000005400060008000000000115000800000000{}0103{PLAIN_WRITTEN}0116000800000000010b0004",
        "01020018000100048001000d00000004010001040c000000"
    );
    let numbers = row(
        "`cldt` with a hop counter of 0 or 255, or class 9",
        || (class_and_hop(9, 0), class_and_hop(9, 255)),
        "92 octets, class 9, hop 0; 92 octets, class 9, hop 255",
    );
    vec![
        row(
            "`cldt` with 65,532 octets of data",
            || made(&plain(&[]), &plain(&[]), 65_532).map(|written| cut(&written, DATA)),
            "65616 octets, length 0",
        )
        .port(cldt(PLAIN, PLAIN, "0 0 0", "x x x x x00*65532"), "refused 10 267 65532 xeeee"),
        row(
            "`asp_up` with an info string of 65,532 octets",
            || cut(&SuaMessage::asp_up(None, Some(&"A".repeat(65_532))).encode(), 8),
            "65544 octets, length 0",
        )
        .port("asp_up 0 0 1 2 x41*65532", "refused 10 4 65532 xeeee"),
        row(
            "`duna` with 16,383 point codes",
            || cut(&SuaMessage::duna(None, &[1; 16_383]).encode(), 8),
            "65544 octets, length 0",
        )
        .port("duna 0 0 2 16383 1*16383", "refused 10 18 65532 xeeee"),
        row("`duna` with no point code", || SuaMessage::duna(None, &[]).encode(), "x010002010000000c00120004")
            .port("duna 0 0 12 0", "ok 12 x010002010000000c00120004"),
        row(
            "`cldt` with a source title of 256 digits",
            || {
                let written = made(&titled(&"1".repeat(256)), &plain(&[]), 0)?;
                Ok(format!("{} octets, count {}", written.len(), written[SOURCE + 16]))
            },
            "208 octets, count 0",
        )
        .port(cldt(&title(256), PLAIN, "0 0 0", "x31*255 x x x x"), "refused 11 256 xeeee"),
        row(
            "`cldt` whose source has an other of 65,532 octets",
            || made(&plain(&[65_532]), &plain(&[]), 0).map(|written| (cut(&written, SOURCE), cut(&written, SOURCE + 24))),
            "65620 octets, length 24; 65620 octets, length 0",
        )
        .port(cldt(WITH_OTHER, PLAIN, "1 32773 1 0 1 65532", "x x x00*65532 x x"), "refused 10 32773 65532 xeeee"),
        row(
            "`cldt` whose source takes 65,532 octets (an other of 65,508)",
            || made(&plain(&[65_508]), &plain(&[]), 0).map(|written| cut(&written, SOURCE)),
            "65596 octets, length 0",
        )
        .port(cldt(WITH_OTHER, PLAIN, "1 32773 1 0 1 65508", "x x x00*65508 x x"), "refused 10 258 65532 xeeee"),
        row(
            "`cldt` whose source takes 1,048,516 octets (15 others of 65,531, one of 65,449)",
            || {
                let mut others = vec![65_531; 15];
                others.push(65_449);
                made(&plain(&others), &plain(&[]), 0).map(|written| format!("{} octets", written.len()))
            },
            "1048580 octets",
        )
        .port(
            cldt("2 0 1 1 0 0 0 0 0 0 0 1 1 1 8 16", PLAIN, "16 32773*16 16 0*16 16 65531*15 65449", "x x x00*65531 x x"),
            "refused 10 258 1048516 xeeee",
        ),
        row(
            "`cldt` with the title `?` in the source and `!` in the destination",
            || made(&titled("?"), &titled("!"), 0),
            "refused 9 63",
        )
        .port(cldt(&title(1), &title(1), "0 0 0", "x3f x21 x x x"), "refused 9 63 xeeee"),
        row(
            "`cldt` with the title `!` in the destination and 65,532 octets of data",
            || made(&plain(&[]), &titled("!"), 65_532),
            "refused 9 33",
        )
        .port(cldt(PLAIN, &title(1), "0 0 0", "x x21 x x x00*65532"), "refused 9 33 xeeee"),
        row(
            "`cldt` with the title `A` in the source, read back",
            || SuaMessage::decode(&made(&titled("A"), &plain(&[]), 0)?)?.source_address(),
            "routing 1, indicator 4, title 4 'a', others 0",
        )
        .port(format!("cldt 0 0 0 0 0 84 {} {PLAIN} 0 0 0 0 0 0 x41 x x x x", title(1)), format!("ok 84 {capital}"))
        .port(
            format!("source_address 1 0 0 0 1 258 1 28 1 20 {capital}"),
            taken("1 1 0 0", "1 4 0 1 4 1 0 x61+00*254", "0 0 0 0 0"),
        ),
        class_and_hop_written(class_and_hop_written(numbers, 9, 0), 9, 255),
        row(
            "a source whose other's record ends behind its values (start 0, length 1, no values)",
            || made(&plain(&[1]), &plain(&[]), 0).map(|written| cut(&written, SOURCE)),
            "92 octets, length 32",
        )
        .port(cldt(WITH_OTHER, PLAIN, "1 32773 1 0 1 1", "x x x x x"), "refused 15 xeeee"),
        row(
            "an output shorter than the message (`asp_up` with nothing, into seven octets)",
            || format!("{} octets", SuaMessage::asp_up(None, None).encode().len()),
            "8 octets",
        )
        .port("asp_up 0 0 0 7 x", "refused 14 8 xeeeeeeeeeeeeee"),
    ]
}
