//! Parameters.

use super::*;
use sua::parameter::{decode_parameters, encode_parameters};

/// One parameter read alone: its value, and the octets that it takes.
fn alone(word: &str) -> Result<(Vec<u8>, String), SuaError> {
    let (parameter, took) = Parameter::decode(&octets(word))?;
    Ok((parameter.value, format!("takes {took}")))
}

pub fn rows() -> Vec<Row> {
    let run = |word: &'static str| move || decode_parameters(&octets(word));
    let long_run = long("", "0004", 16, "00");
    let long_read = octets(&long_run);
    vec![
        row("one to three octets after the last parameter (`AA`)", run("xaa"), "parameters 0")
            .port("decode_parameters 0 0 0 xaa", "ok 0 t s l")
            .port("step 0 xaa", "end"),
        row("the last parameter's padding missing (`00 04 00 05 41`)", || alone("x0004000541"), "x41; takes 5")
            .port("parameter_decode x0004000541", "ok 4 4 1 5")
            .port("decode_parameters 1 1 1 x0004000541", "ok 1 t4 s4 l1"),
        row("padding that is not 0 (`00 04 00 05 41 FF FF FF`)", || alone("x0004000541ffffff"), "x41; takes 8")
            .port("parameter_decode x0004000541ffffff", "ok 4 4 1 8")
            .port("settle 16 x01000301000000000004000541ffffff", "ok 16 x01000301000000100004000541000000"),
        row("a length below 4 (`00 04 00 03`)", run("x00040003"), "refused 5 4 3")
            .port("parameter_decode x00040003", "refused 5 4 3")
            .port("step 0 x00040003", "refused 5 4 3")
            .port("decode_parameters 0 0 0 x00040003", "refused 5 4 3 t s l"),
        row("a length beyond the octets (`00 04 00 06 41`)", run("x0004000641"), "refused 6 4 6 5")
            .port("parameter_decode x0004000641", "refused 6 4 6 5")
            .port("step 4 x000400040004000641", "refused 6 4 6 5")
            .port("decode_parameters 0 0 0 x0004000641", "refused 6 4 6 5 t s l"),
        row("a value of 65,532 octets, written with tag 4", || cut(&zeros(4, 65_532).encode(), 0), "65536 octets, length 0")
            .port("parameter_encode 4 2 x00*65532", "refused 10 4 65532 xeeee")
            .port("encode_parameters 1 2 1 4 1 0 1 65532 x00*65532", "refused 10 4 65532 xeeee"),
        row("its wire length", || zeros(4, 65_532).wire_length().to_string(), "65536")
            .port("wire_length 4 65532", "refused 10 4 65532")
            .port("parameters_length 1 1 4 1 0 1 65532 x00*65532", "refused 10 4 65532"),
        row(
            "1,048,577 octets, read (16 values of 65,531 octets, one octet behind them)",
            move || (decode_parameters(&long_read), Parameter::decode(&long_read).map(|(_, took)| format!("takes {took}"))),
            "parameters 16; takes 65536",
        )
        .port(format!("decode_parameters 0 0 0 {long_run}"), "refused 12 1048577 t s l")
        .port(format!("parameter_decode {long_run}"), "refused 12 1048577")
        .port(format!("step 0 {long_run}"), "refused 12 1048577"),
        row(
            "a value of 1,048,577 octets, as a number (`01 02 03 04` and octets of 0)",
            || Parameter::new(4, octets("x01020304+00*1048573")).as_u32().map(|n| format!("{n:#010x}")),
            "0x01020304",
        )
        .port("as_u32 x01020304+00*1048573", "refused 12 1048577"),
        row(
            "16 values of 65,531 octets and one of none, written",
            || format!("{} octets", encode_parameters(&[vec![zeros(4, 65_531); 16], vec![zeros(4, 0)]].concat()).len()),
            "1048580 octets",
        )
        .port("encode_parameters 17 2 17 4*17 17 0*17 17 65531*16 0 x00*65531", "refused 12 1048580 xeeee"),
        row("a table of no rows, for one parameter (`00 04 00 04`)", run("x00040004"), "parameters 1")
            .port("decode_parameters 0 0 0 x00040004", "refused 13 1 t s l")
            .port("decode_parameters 1 0 1 x00040004", "refused 13 1 t60000 s l60000"),
        row(
            "an output shorter than what is written (a value of no octets into three octets)",
            || format!("{} octets", zeros(4, 0).encode().len()),
            "4 octets",
        )
        .port("parameter_encode 4 3 x", "refused 14 4 xeeeeee")
        .port("encode_parameters 1 3 1 4 1 0 1 0 x", "refused 14 4 xeeeeee"),
        row(
            "a record that ends behind the values (start 0, length 1, no values)",
            || zeros(4, 1).encode(),
            "x0004000500000000",
        )
        .port("encode_parameters 1 2 1 4 1 0 1 1 x", "refused 15 xeeee")
        .port("parameters_length 1 1 4 1 0 1 1 x", "refused 15")
        .port("find_parameter 1 4 1 4 1 0 1 1 x", "refused 15"),
    ]
}
