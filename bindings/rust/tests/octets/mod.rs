//! Octets of hexadecimal words, and the messages that several tests use.
#![allow(dead_code)]

/// ASP Up with no parameters.
pub const ASP: &str = "01000301 00000008";

/// The header of a CLDT; its length is not that of the message.
pub const CLDT: &str = "01000701 00000000";

/// One text as two gateways sent it, and its form.
pub const FIRST: &str = "01000701 00000056
    01020024 00010005 80010012 00000004 0b000104 21205505 41f2ffff 80030008 00000008
    01030024 00010005 80010012 00000004 0c000104 44770009 1032ffff 80030008 00000006
    010b0006 4869";
pub const SECOND: &str = "01ff0701 00000000
    01020024 0001fffd 80010012 ffffff04 0b000104 21205505 41020000 80030008 ffffff08
    01030024 00010005 80030008 00000006 80010012 00000004 0c000104 44770009 10320000
    010b0006 48690000 ffffff";
pub const FORM: &str = "01000701 00000058
    01020024 00010005 80010012 00000004 0b000104 21205505 41020000 80030008 00000008
    01030024 00010005 80010012 00000004 0c000104 44770009 10320000 80030008 00000006
    010b0006 48690000";

/// The header of a DATA of M3UA; its length is not that of the message.
pub const DATA: &str = "01000101 00000000";

/// One DATA as two gateways sent it, and its form: a network appearance, a Protocol Data from point
/// code 4001 to 4002 with the payload `Hello`, and a text.
pub const FIRST_DATA: &str = "01000101 0000002e
    02000008 00000007 02100015 00000fa1 00000fa2 03020105 48656c6c 6fffffff 00040006 4869";
pub const SECOND_DATA: &str = "01ff0101 00000000
    02000008 00000007 02100015 00000fa1 00000fa2 03020105 48656c6c 6f123456 00040006 4869aabb
    ffffff";
pub const FORM_DATA: &str = "01000101 00000030
    02000008 00000007 02100015 00000fa1 00000fa2 03020105 48656c6c 6f000000 00040006 48690000";

/// The octets of several texts of hexadecimal digits, one after the other.
pub fn octets(texts: &[&str]) -> Vec<u8> {
    let digits: Vec<u32> = texts
        .concat()
        .chars()
        .filter(|c| !c.is_whitespace())
        .map(|c| c.to_digit(16).unwrap())
        .collect();
    digits
        .chunks(2)
        .map(|two| (two[0] * 16 + two[1]) as u8)
        .collect()
}
