//! Messages.

use super::*;

/// A CLDT with a hop counter and nothing else.
const COUNTED: &str = "x0100070100000010010100080000000f";

/// A message that is read, and what reading and settling it answer.
fn read(input: &'static str, message: &'static str, said: &'static str, answer: &str, form: &str) -> Row {
    row(input, move || SuaMessage::decode(&octets(message)), said)
        .port(format!("message_decode 0 0 0 {message}"), answer)
        .port(format!("settle 8 {message}"), form)
}

pub fn rows() -> Vec<Row> {
    let long_message = long("0100030100000008", "0004", 15, "0004fff9+00*65525");
    let long_read = octets(&long_message);
    vec![
        read(
            "a message length that is not the octets given (`01 00 03 01 00 00 00 63`)",
            "x0100030100000063",
            "UP, parameters 0",
            "ok 3 1 0 t s l",
            "ok 8 x0100030100000008",
        ),
        read(
            "two messages in one, each `01 00 03 01 00 00 00 08`",
            "x01000301000000080100030100000008",
            "refused 6 256 769 8",
            "refused 6 256 769 8 t s l",
            "refused 6 256 769 8 xee*8",
        ),
        read(
            "a reserved octet that is not 0 (`01 FF 03 01 00 00 00 08`)",
            "x01ff030100000008",
            "UP, parameters 0",
            "ok 3 1 0 t s l",
            "ok 8 x0100030100000008",
        ),
        read(
            "a CLDT without parameters (`01 00 07 01 00 00 00 08`)",
            "x0100070100000008",
            "CLDT, parameters 0",
            "ok 7 1 0 t s l",
            "ok 8 x0100070100000008",
        ),
        row(
            "a hop counter (`01 00 07 01 00 00 00 10 01 01 00 08 00 00 00 0F`)",
            || SuaMessage::decode(&octets(COUNTED)).map(|message| message.encode()),
            COUNTED,
        )
        .port(format!("settle 16 {COUNTED}"), "ok 8 x0100070100000008+ee*8")
        .port(format!("settle 8 {COUNTED}01010004010100050f"), "ok 8 x0100070100000008")
        .port(format!("settled_length {COUNTED}"), "ok 8")
        .port(format!("message_decode 1 1 1 {COUNTED}"), "ok 7 1 1 t257 s12 l4")
        .port(format!("read 16 {COUNTED}"), "0 16 0 0 x07010000000101010000000c00000004")
        .port("message_encode 7 1 1 16 1 257 1 0 1 4 x0000000f", format!("ok 16 {COUNTED}"))
        .port("encode 7 1 16 x0101000000040000000f", format!("0 16 0 0 {COUNTED}")),
        read(
            "a class that is reserved (`01 00 01 01 00 00 00 08`)",
            "x0100010100000008",
            "refused 4 1 1",
            "refused 4 1 1 t s l",
            "refused 4 1 1 xee*8",
        )
        .port("header_decode x0100010100000008", "refused 4 1 1")
        .port("class_type 1 1", "refused 4 1 1"),
        row(
            "a header written alone with version 7",
            || CommonHeader { version: 7, message_type: MessageType::AspUp, message_length: 8 }.encode().to_vec(),
            "x0700030100000008",
        )
        .port("header_encode 7 3 1 8 8", "ok 8 x0700030100000008"),
        row(
            "1,048,577 octets, read as a message (15 values of 65,531 octets, one of 65,525)",
            move || SuaMessage::decode(&long_read),
            "UP, parameters 16",
        )
        .port(format!("message_decode 0 0 0 {long_message}"), "refused 12 1048577 t s l")
        .port(format!("settled_length {long_message}"), "refused 12 1048577"),
        row(
            "1,048,577 octets, read as a header (`01 00 03 01 00 00 00 08` and 1,048,569 octets of 0)",
            || CommonHeader::decode(&octets("x0100030100000008+00*1048569")),
            "UP, length 8",
        )
        .port("header_decode x0100030100000008+00*1048569", "refused 12 1048577"),
        row(
            "a message of 1,048,580 octets, written (15 values of 65,531 octets, one of 65,525)",
            || {
                let parameters = [vec![zeros(4, 65_531); 15], vec![zeros(4, 65_525)]].concat();
                format!("{} octets", SuaMessage::new(MessageType::AspUp, parameters).encode().len())
            },
            "1048580 octets",
        )
        .port("message_encode 3 1 16 2 16 4*16 16 0*16 16 65531*15 65525 x00*65531", "refused 12 1048580 xeeee"),
    ]
}
