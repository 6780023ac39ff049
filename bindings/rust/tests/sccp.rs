//! Addresses to and from SCCP: worked addresses both ways, every condition that is refused on
//! either side, the order of refusals, and what is left as it was.

mod octets;

use navrost::{from_sccp, to_sccp, Refusal};
use octets::octets;

type Call = fn(&[u8], &mut [u8]) -> Result<usize, Refusal>;

/// An address value and its party address: the title 12025550142 and SSN 8, routed on title.
const TITLE_SSN: (&str, &str) = (
    "00010005 80010012 00000004 0b000104 21205505 41020000 80030008 00000008",
    "12 08 00 11 04 212055054102",
);
/// Point code 1,000 and SSN 6, routed on SSN.
const SSN_CODE: (&str, &str) = ("00020003 80020008 000003e8 80030008 00000006", "43 e803 06");
/// All parts: the title 447700900123 with translation type 9, numbering plan 15 and nature 127,
/// point code 16,383 and SSN 254, routed on SSN.
const ALL: (&str, &str) = (
    "00020007 80010012 00000004 0c090f7f 44770009 10320000 80020008 00003fff 80030008 000000fe",
    "53 ff3f fe 09 f2 7f 447700091032",
);
/// A title without digits.
const NO_DIGITS: (&str, &str) = ("00010004 8001000c 00000004 00000104", "10 00 12 04");

/// The call writes these octets and nothing behind them. With less room it is 14, and writes none.
fn gives(call: Call, given: &str, expected: &str) {
    let (given, expected) = (octets(&[given]), octets(&[expected]));
    let n = expected.len();
    for room in 0..n + 4 {
        let mut out = vec![0xa5; room];
        let answer = call(&given, &mut out);
        if room < n {
            assert_eq!(answer, Err(Refusal::OutputTooSmall(n as u64)));
            assert_eq!(out, vec![0xa5; room]);
        } else {
            assert_eq!(answer, Ok(n), "{:02x?}", given);
            assert_eq!(out[..n], expected);
            assert_eq!(out[n..], vec![0xa5; room - n]);
        }
    }
}

/// The call refuses, also where there is no room, and leaves the output as it was.
fn refuses(call: Call, given: &[u8], refusal: Refusal) {
    for room in [0, 1, 200] {
        let mut out = vec![0xa5; room];
        assert_eq!(call(given, &mut out), Err(refusal), "{:02x?}", given);
        assert_eq!(out, vec![0xa5; room]);
    }
}

/// `ALL`'s value with one text of it replaced is refused as 17.
fn unconvertible(from: &str, to: &str) {
    assert_eq!(ALL.0.matches(from).count(), 1, "{}", from);
    let value = octets(&[&ALL.0.replace(from, to)]);
    refuses(to_sccp, &value, Refusal::UnconvertibleAddress);
}

/// The octets of these texts are refused as 18.
fn invalid(texts: &[&str]) {
    refuses(from_sccp, &octets(texts), Refusal::InvalidSccpAddress);
}

#[test]
fn both_ways() {
    let none = [("00010000", "00"), ("00020000", "40")];
    let one = [
        ("00010002 80020008 00000000", "01 0000"),
        ("00020001 80030008 00000000", "42 00"),
        (
            "00020004 8001000d 00000004 01ff0000 0e000000",
            "50 ff 01 00 0e",
        ),
        (
            "00010004 8001000d 00000004 02000104 21000000",
            "10 00 12 04 21",
        ),
    ];
    let worked = [TITLE_SSN, SSN_CODE, ALL, NO_DIGITS];
    for (value, party) in worked.iter().chain(&none).chain(&one) {
        gives(to_sccp, value, party);
        gives(from_sccp, party, value);
    }
}

#[test]
fn up_to_255_digits() {
    for count in 0..=255 {
        let digits: Vec<u8> = (0..count).map(|i| (i * 7 % 15) as u8).collect();
        let packed: String = digits
            .chunks(2)
            .map(|two| format!("{:x}{:x}", two.get(1).copied().unwrap_or(0), two[0]))
            .collect();
        let (n, scheme) = (packed.len() / 2, 2 - count % 2);
        let padding = "00".repeat((4 - n % 4) % 4);
        let value = format!(
            "00010004 8001 {:04x} 00000004 {:02x} 000104 {}{}",
            12 + n,
            count,
            packed,
            padding
        );
        let party = format!("10 00 1{} 04 {}", scheme, packed);
        gives(to_sccp, &value, &party);
        gives(from_sccp, &party, &value);
    }
}

#[test]
fn what_means_nothing() {
    // Reserved bits of the address indicator, and reserved octets of title and SSN.
    let reserved = ALL
        .0
        .replace("00020007", "0002ffff")
        .replace("00000004", "ffffff04")
        .replace("000000fe", "fffffffe");
    for value in [
        &*reserved,
        // The parts in another order, with octets in the padding and behind the last.
        "00020007 80030008 000000fe 80020008 00003fff
            80010012 00000004 0c090f7f 44770009 1032ffff aabb",
        // Longer values of point code and SSN.
        "00020007 80010012 00000004 0c090f7f 44770009 10320000
            80020009 00003fff ff000000 8003000c 000000fe ffffffff",
        // Each part twice: the last holds.
        "00020007 8001000c 00000000 00ffffff 80020008 ffffffff 80030008 00000001
            80010012 00000004 0c090f7f 44770009 10320000 80020008 00003fff 80030008 000000fe",
        // A digit count larger than the digits that came.
        "00020007 80010012 00000004 ff090f7f 44770009 10320000
            80020008 00003fff 80030008 000000fe",
        // Octets behind the digits that are counted.
        "00020007 80010014 00000004 0c090f7f 44770009 1032ffff
            80020008 00003fff 80030008 000000fe",
    ] {
        gives(to_sccp, value, ALL.1);
    }
    // The filler of a value is not looked at, and is written as 0.
    gives(to_sccp, &TITLE_SSN.0.replace("4102", "41f2"), TITLE_SSN.1);
}

#[test]
fn routing_that_does_not_convert() {
    for routing in ["0000", "0003", "0004"] {
        unconvertible("00020007", &format!("{}0007", routing));
    }
}

#[test]
fn include_bits_equal_presence() {
    let parts = [
        ("80010012 00000004 0c090f7f 44770009 10320000", 4),
        ("80020008 00003fff", 2),
        ("80030008 000000fe", 1),
    ];
    for there in 0..8 {
        let here: Vec<&str> = parts
            .iter()
            .filter(|part| there & part.1 != 0)
            .map(|part| part.0)
            .collect();
        for bits in 0..8 {
            let value = octets(&[&format!("0001000{}", bits), &here.concat()]);
            if bits == there {
                assert!(to_sccp(&value, &mut [0; 135]).is_ok());
            } else {
                refuses(to_sccp, &value, Refusal::UnconvertibleAddress);
            }
        }
    }
}

#[test]
fn other_sub_parameters() {
    for other in [
        "80050005 41000000",
        "80040008 7f000001",
        "80060004",
        "01020004",
        "00000004",
    ] {
        unconvertible("00020007", &format!("00020007 {}", other));
        unconvertible("000000fe", &format!("000000fe {}", other));
        let value = octets(&["00010000", other]);
        refuses(to_sccp, &value, Refusal::UnconvertibleAddress);
    }
}

#[test]
fn titles_that_do_not_convert() {
    for indicator in (0..=255).filter(|i| *i != 4) {
        unconvertible("00000004", &format!("000000{:02x}", indicator));
    }
    for plan in 16..=255 {
        unconvertible("0c090f", &format!("0c09{:02x}", plan));
    }
    for nature in 128..=255 {
        unconvertible("0f7f", &format!("0f{:02x}", nature));
    }
    let digits = "447700091032";
    for at in 0..digits.len() {
        let mut spoilt = digits.to_string();
        spoilt.replace_range(at..=at, "f");
        let spoilt = format!("{} {}", &spoilt[..8], &spoilt[8..]);
        unconvertible("44770009 1032", &spoilt);
    }
}

#[test]
fn point_codes_that_do_not_convert() {
    for code in ["00004000", "0000ffff", "00010000", "01000001", "ffffffff"] {
        unconvertible("00003fff", code);
    }
}

#[test]
fn octets_that_end_early_or_go_on() {
    // No octets, then one less than each part needs. Where a title's three numbers are there, fewer
    // octets are fewer digits: of an even number it may have none, of an odd one it may not.
    let party = octets(&[ALL.1]);
    for end in 0..7 {
        refuses(from_sccp, &party[..end], Refusal::InvalidSccpAddress);
    }
    for end in 7..=party.len() {
        assert!(from_sccp(&party[..end], &mut [0; 160]).is_ok());
    }
    for end in 0..4 {
        let party = octets(&[SSN_CODE.1]);
        refuses(from_sccp, &party[..end], Refusal::InvalidSccpAddress);
    }
    for party in [
        "10", "10 00", "10 00 12", "12 08", "12 08 00", "11 e803", "01", "01 e8", "02",
    ] {
        invalid(&[party]);
    }
    for party in [SSN_CODE.1, "00", "40", "41 e803", "42 06", "01 0000"] {
        invalid(&[party, "00"]);
        invalid(&[party, "00 12 04"]);
    }
}

#[test]
fn reserved_bits() {
    for party in [TITLE_SSN.1, SSN_CODE.1, ALL.1, NO_DIGITS.1, "00"] {
        let mut party = octets(&[party]);
        party[0] |= 0x80;
        refuses(from_sccp, &party, Refusal::InvalidSccpAddress);
    }
    for high in ["40", "7f", "80", "bf", "c0", "ff"] {
        invalid(&["43 00", high, "06"]);
        invalid(&["41 00", high]);
    }
    for nature in 128..=255 {
        invalid(&["10 00 12", &format!("{:02x}", nature)]);
        invalid(&["10 00 11", &format!("{:02x}", nature), "01"]);
    }
}

#[test]
fn title_indicators_and_schemes() {
    for indicator in (1..16).filter(|i| *i != 4) {
        for (parts, octets) in [(0, ""), (2, "08"), (3, "e80308")] {
            let first = format!("{:02x}", indicator * 4 + parts);
            for title in ["", "00", "00 12 04", "00 12 04 21", "00 11 04 01"] {
                invalid(&[&first, octets, title]);
            }
        }
    }
    for scheme in (0..16).filter(|scheme| !matches!(scheme, 1 | 2)) {
        for digits in ["", "21", "01", "2143"] {
            invalid(&["10 00", &format!("1{:x}", scheme), "04", digits]);
        }
    }
    // An odd number of digits is not 0.
    invalid(&["10 00 11 04"]);
    invalid(&["12 08 00 11 04"]);
}

#[test]
fn digits_that_do_not_convert() {
    for filler in 1..16 {
        invalid(&["10 00 11 04", &format!("{:x}1", filler)]);
        invalid(&["12 08 00 11 04 212055054", &format!("1 {:x}2", filler)]);
    }
    for spoilt in ["f1", "1f", "ff"] {
        for before in ["", "21"] {
            invalid(&["10 00 12 04", before, spoilt]);
            invalid(&["10 00 12 04", before, spoilt, "21"]);
            invalid(&["10 00 11 04", before, spoilt, "01"]);
        }
    }
    invalid(&["10 00 11 04 0f"]);
    // 256 digits, 257, and more.
    for octets in [128, 129, 130, 255, 256, 300] {
        invalid(&["10 00 12 04", &"21".repeat(octets)]);
        if octets > 128 {
            invalid(&["10 00 11 04", &"21".repeat(octets - 1), "01"]);
        }
    }
}

#[test]
fn the_first_refusal() {
    // Too many octets, before all else.
    let long = vec![0xff; 1_048_577];
    for call in [to_sccp as Call, from_sccp] {
        refuses(call, &long, Refusal::TooManyOctets(1_048_577));
    }
    let indicator = Refusal::InvalidRoutingIndicator(65_535);
    refuses(to_sccp, &long[1..], indicator);
    refuses(from_sccp, &long[1..], Refusal::InvalidSccpAddress);

    // Reading's refusals, of values that would not convert either.
    let too_short = |expected, actual| Refusal::TooShort { expected, actual };
    let cut = |tag, expected, actual| Refusal::ParameterTooShort {
        tag,
        expected,
        actual,
    };
    let below_four = Refusal::InvalidParameter {
        tag: 0x8005,
        length: 3,
    };
    for (value, refusal) in [
        ("", too_short(4, 0)),
        ("000300", too_short(4, 3)),
        ("00050007", Refusal::InvalidRoutingIndicator(5)),
        ("00030007 80050003", below_four),
        ("00030007 80050009 41424344", cut(0x8005, 9, 8)),
        ("00030007 8001000b 00000000 000000", too_short(8, 7)),
        ("00030007 80020007 000000", cut(0x8002, 4, 3)),
        ("00030007 80030004", cut(0x8003, 4, 0)),
        // The walk first, then the parts.
        ("00030007 80030004 80050003", below_four),
        // A part that another follows, which holds.
        ("00010001 80030004 80030008 00000008", cut(0x8003, 4, 0)),
    ] {
        refuses(to_sccp, &octets(&[value]), refusal);
    }
}

#[test]
fn numbers_without_values() {
    let refused = [
        (to_sccp(&[0, 0, 0, 0], &mut []), 17),
        (from_sccp(&[], &mut []), 18),
    ];
    for (answer, number) in refused {
        let refusal = answer.unwrap_err();
        assert_eq!((refusal.number(), &*refusal.values()), (number, &[][..]));
    }
}
