//! M3UA: settled forms, Protocol Data read and refused, writing, and the pairs of RFC 4666.

mod octets;
mod settling;

use navrost::m3ua::{
    encode, encode_vec, read, read_vec, settle_vec, Account, Parameter, ProtocolData, PROTOCOL_DATA,
};
use navrost::{push_parameter, Refusal};
use octets::{octets, ASP, CLDT, DATA, FIRST_DATA, FORM_DATA, SECOND_DATA};
use settling::M3UA;

/// A Protocol Data of twelve octets, and one of eleven with its padding.
const LEAST: &str = "02100010 00000001 00000002 03020005";
const SHORT: &str = "0210000f 00000001 00000002 03020005";

/// The message of these texts has this form.
fn gives(message: &[&str], form: &[&str]) {
    M3UA.gives(&octets(message), &octets(form));
}

/// The message of these texts is refused so, settled and read, and nothing is written.
fn refuses(message: &[&str], number: u8, values: &[u64]) {
    let message = octets(message);
    let refusal = settle_vec(&message).unwrap_err();
    M3UA.refuses(&message, refusal, number, values);
    assert_eq!(read_vec(&message).unwrap_err(), refusal);
    for room in [0, 100] {
        let mut account = vec![0xee; room];
        assert_eq!(read(&message, &mut account).unwrap_err(), refusal);
        assert_eq!(account, vec![0xee; room]);
    }
}

/// What an account hands out.
fn told(account: Account<'_>) -> (u8, u8, Vec<Parameter<'_>>) {
    (
        account.message_class(),
        account.message_type(),
        account.parameters().collect(),
    )
}

/// The tags and values of an account's parameters.
fn listed(account: Account<'_>) -> Vec<(u16, &[u8])> {
    account.parameters().map(|p| (p.tag, p.value)).collect()
}

#[test]
fn one_data_from_two_gateways() {
    gives(&[FIRST_DATA], &[FORM_DATA]);
    gives(&[SECOND_DATA], &[FORM_DATA]);
    gives(&[FORM_DATA], &[FORM_DATA]);
    gives(&[ASP], &[ASP]);
}

#[test]
fn what_means_nothing() {
    let form = octets(&[FORM_DATA]);
    for reserved in 0..=255 {
        let mut copy = form.clone();
        copy[1] = reserved;
        M3UA.gives(&copy, &form);
    }
    for length in [0, 1, 7, 8, 47, 49, 0x0100_0000, u32::MAX] {
        let mut copy = form.clone();
        copy[4..8].copy_from_slice(&length.to_be_bytes());
        M3UA.gives(&copy, &form);
    }
    // The padding of the Protocol Data, and of the last parameter.
    for at in [37, 38, 39, 46, 47] {
        for octet in [1, 0x80, 0xff] {
            let mut copy = form.clone();
            copy[at] = octet;
            M3UA.gives(&copy, &form);
        }
    }
    for missing in 1..=2 {
        M3UA.gives(&form[..form.len() - missing], &form);
    }
    for behind in [&b"\0"[..], b"\xff", b"\x02\x10", b"\x02\x10\0"] {
        M3UA.gives(&[&form, behind].concat(), &form);
    }
}

#[test]
fn what_means_something() {
    let form = octets(&[FORM_DATA]);
    let meant = (2..4).chain(8..37).chain(40..46);
    let mut forms = vec![form.clone()];
    for at in meant {
        let mut other = form.clone();
        other[at] ^= 1;
        match settle_vec(&other) {
            Ok(form) => forms.push(form),
            Err(refusal) => assert!(matches!(refusal.number(), 4..=6)),
        }
    }
    let count = forms.len();
    forms.sort();
    forms.dedup();
    assert_eq!(forms.len(), count);
    assert!(count > 30);
}

#[test]
fn nothing_is_dropped_or_rewritten() {
    // SUA's hop counter and addresses, one of them with no address in it.
    let kept = "01010008 0000000f 01020005 ff000000 01030008 0001fffd 01010004";
    gives(&[DATA, kept], &["01000101 00000024", kept]);
    gives(
        &[DATA, "01010005 0e"],
        &["01000101 00000010 01010005 0e000000"],
    );
    let message = octets(&[DATA, kept, LEAST]);
    let reading = read_vec(&message).unwrap();
    let list = listed(reading.account());
    let tags: Vec<u16> = list.iter().map(|&(tag, _)| tag).collect();
    assert_eq!(tags, [0x0101, 0x0102, 0x0103, 0x0101, PROTOCOL_DATA]);
    assert_eq!(list[1].1, [0xff]);
}

#[test]
fn every_field_of_a_protocol_data() {
    let message = octets(&[
        DATA,
        "02000008 00000007",
        "02100013 81020304 a1b2c3d4 15263748 616263ee",
        LEAST,
        "02100014 ffffffff fffffffe fdfcfbfa 00000000",
    ]);
    let reading = read_vec(&message).unwrap();
    let (class, msg_type, parameters) = told(reading.account());
    assert_eq!((class, msg_type, reading.account().len()), (1, 1, 4));
    let read: Vec<_> = parameters
        .iter()
        .map(|p| (p.tag, p.protocol_data))
        .collect();
    let first = ProtocolData {
        originating: 0x8102_0304,
        destination: 0xa1b2_c3d4,
        service_indicator: 0x15,
        network_indicator: 0x26,
        priority: 0x37,
        selection: 0x48,
        payload: b"abc",
    };
    let second = ProtocolData {
        originating: 1,
        destination: 2,
        service_indicator: 3,
        network_indicator: 2,
        priority: 0,
        selection: 5,
        payload: b"",
    };
    let third = ProtocolData {
        originating: u32::MAX,
        destination: u32::MAX - 1,
        service_indicator: 0xfd,
        network_indicator: 0xfc,
        priority: 0xfb,
        selection: 0xfa,
        payload: &[0; 4],
    };
    let expected = [
        (0x0200, None),
        (PROTOCOL_DATA, Some(first)),
        (PROTOCOL_DATA, Some(second)),
        (PROTOCOL_DATA, Some(third)),
    ];
    assert_eq!(read, expected);

    // The value and the payload lie in the message.
    assert_eq!(parameters[1].value, &message[20..35]);
    let payload = parameters[1].protocol_data.unwrap().payload;
    assert!(std::ptr::eq(payload, &message[32..35]));
    let empty = parameters[2].protocol_data.unwrap().payload;
    assert!(empty.is_empty());
}

#[test]
fn a_protocol_data_is_read_in_any_type() {
    let message = octets(&[ASP, LEAST]);
    let reading = read_vec(&message).unwrap();
    let data = reading.account().parameters().next().unwrap();
    assert_eq!(data.protocol_data.map(|d| d.destination), Some(2));
    refuses(&[ASP, SHORT], 6, &[0x0210, 12, 11]);
}

#[test]
fn a_protocol_data_under_twelve_octets() {
    let refusal = Refusal::ParameterTooShort {
        tag: PROTOCOL_DATA,
        expected: 12,
        actual: 11,
    };
    let message = octets(&[DATA, SHORT]);
    assert_eq!(settle_vec(&message), Err(refusal));
    for length in 0..12u16 {
        let mut message = octets(&[DATA, LEAST, "0210"]);
        message.extend((4 + length).to_be_bytes());
        message.resize(message.len() + usize::from(length), 0x41);
        let values = [0x0210, 12, u64::from(length)];
        M3UA.refuses(&message, settle_vec(&message).unwrap_err(), 6, &values);
        assert_eq!(*read_vec(&message).unwrap_err().values(), values);
    }
    assert!(settle_vec(&octets(&[DATA, LEAST])).is_ok());
}

#[test]
fn the_first_short_protocol_data_in_wire_order() {
    let shorter = "0210000a 00000001 00000000";
    refuses(&[DATA, SHORT], 6, &[0x0210, 12, 11]);
    refuses(&[DATA, LEAST, SHORT], 6, &[0x0210, 12, 11]);
    refuses(&[DATA, SHORT, LEAST], 6, &[0x0210, 12, 11]);
    refuses(&[DATA, SHORT, shorter], 6, &[0x0210, 12, 11]);
    refuses(&[DATA, shorter, SHORT], 6, &[0x0210, 12, 6]);
}

#[test]
fn the_whole_walk_comes_before_a_protocol_data() {
    refuses(&[DATA, SHORT, "00040003"], 5, &[4, 3]);
    refuses(&[DATA, SHORT, LEAST, "00040000"], 5, &[4, 0]);
    refuses(&[DATA, SHORT, "00040006 41"], 6, &[4, 6, 5]);
    refuses(&[DATA, SHORT, "02100010 00000001"], 6, &[0x0210, 16, 8]);
    refuses(&["02000101 00000000", SHORT], 2, &[2]);
    refuses(&["01000102 00000000", SHORT], 4, &[1, 2]);
}

#[test]
fn refusals_of_reading() {
    refuses(&[], 1, &[8, 0]);
    refuses(&["01000101 000000"], 1, &[8, 7]);
    refuses(&["02000701 00000000"], 2, &[2]);
    refuses(&["00000101 00000000"], 2, &[0]);
    refuses(&[CLDT], 4, &[7, 1]);
    refuses(&[CLDT, "00040003"], 4, &[7, 1]);
    refuses(&["01000801 00000000"], 4, &[8, 1]);
    refuses(&[DATA, "00040003", SHORT], 5, &[4, 3]);
    refuses(&[DATA, "0210000f 00000001"], 6, &[0x0210, 15, 8]);
}

#[test]
fn lengths_at_their_bounds() {
    // As many parameters as there can be: the account has more octets than a message may have.
    let mut message = octets(&[DATA]);
    while message.len() < 1_048_576 {
        message.extend([0, 4, 0, 4]);
    }
    let reading = read_vec(&message).unwrap();
    assert_eq!(reading.account().len(), 262_142);
    assert_eq!(reading.account().parameters().count(), 262_142);
    let mut account = vec![0xee; 2_621_427];
    let refusal = Refusal::OutputTooSmall(2_621_426);
    assert_eq!(
        read(&message, &mut account[..2_621_425]).unwrap_err(),
        refusal
    );
    assert!(account.iter().all(|&octet| octet == 0xee));
    assert_eq!(read(&message, &mut account).unwrap().len(), 262_142);
    assert_eq!(account[2_621_426], 0xee);
    let mut form = message.clone();
    form[4..8].copy_from_slice(&1_048_576u32.to_be_bytes());
    M3UA.gives(&message, &form);

    message.push(0);
    let refusal = Refusal::TooManyOctets(1_048_577);
    M3UA.refuses(&message, refusal, 12, &[1_048_577]);
    assert_eq!(read_vec(&message).unwrap_err(), refusal);
    assert_eq!(read(&message, &mut []).unwrap_err(), refusal);
}

/// As many Protocol Data as there is room for, whose accounts take 30 octets for each 16.
#[test]
fn many_protocol_data() {
    let mut message = octets(&[DATA]);
    for n in 0..1000u32 {
        message.extend(octets(&["02100010"]));
        message.extend(n.to_be_bytes());
        message.extend(octets(&["00000002 03020005"]));
    }
    let reading = read_vec(&message).unwrap();
    let data = reading.account().parameters().map(|p| p.protocol_data);
    let codes: Vec<u32> = data.map(|d| d.unwrap().originating).collect();
    assert!(codes.into_iter().eq(0..1000));
}

#[test]
fn reading_needs_its_room() {
    // Class, type and number; a place for each parameter; twelve octets and two numbers of a
    // Protocol Data.
    let needed = 6 + 3 * 10 + 20;
    let message = octets(&[FIRST_DATA]);
    for room in 0..needed {
        let mut account = vec![0xee; room];
        let refusal = read(&message, &mut account).unwrap_err();
        assert_eq!(refusal, Refusal::OutputTooSmall(needed as u64));
        assert_eq!(account, vec![0xee; room]);
    }
    let mut account = vec![0xee; needed + 2];
    assert_eq!(read(&message, &mut account[..needed]).unwrap().len(), 3);
    assert_eq!(read(&message, &mut account).unwrap().len(), 3);
    assert_eq!(account[needed..], [0xee; 2]);
}

#[test]
fn the_octets_of_an_account() {
    let message = octets(&[
        DATA,
        "00040005 41000000 02100011 00000fa1 00000fa2 03020105 42",
    ]);
    let account = octets(&[
        "01 01 00000002",
        "0004 0000000c 00000001",
        "0210 00000014 0000000d",
        "00000fa1 00000fa2 03 02 01 05 00000020 00000001",
    ]);
    let mut room = vec![0; account.len()];
    read(&message, &mut room).unwrap();
    assert_eq!(room, account);
}

#[test]
fn a_list() {
    let mut list = Vec::new();
    push_parameter(&mut list, 0x0200, b"").unwrap();
    push_parameter(&mut list, PROTOCOL_DATA, b"Hello").unwrap();
    // A Protocol Data is written as it is, also where reading would refuse it.
    let message = octets(&["01000101 00000018 02000004 02100009 48656c6c 6f000000"]);
    let mut out = [0xee; 26];
    assert_eq!(encode(1, 1, &list, &mut out), Ok(24));
    assert_eq!(out[..24], message);
    assert_eq!(out[24..], [0xee; 2]);
    assert_eq!(encode(1, 1, &list, &mut out[..24]), Ok(24));
    let parameters = [(0x0200, &b""[..]), (PROTOCOL_DATA, b"Hello")];
    assert_eq!(encode_vec(1, 1, &parameters), Ok(message));
}

#[test]
fn writing_refuses_in_order_and_writes_nothing() {
    let mut tall = Vec::new();
    push_parameter(&mut tall, 4, &[0; 65_532]).unwrap();
    let broken = [&tall[..], &[0, 4, 0]].concat();
    let mut full = Vec::new();
    for _ in 0..17 {
        push_parameter(&mut full, PROTOCOL_DATA, &[0; 65_531]).unwrap();
    }
    let unknown = Refusal::InvalidMessageType {
        class: 1,
        msg_type: 0,
    };
    let too_long = Refusal::ValueTooLong {
        tag: 4,
        length: 65_532,
    };
    let mut out = [0xee; 100];
    for (msg_type, list, refusal) in [
        (0, &broken[..], unknown),
        (1, &broken, Refusal::OutsideSlice),
        (1, &tall, too_long),
        (1, &full, Refusal::TooManyOctets(8 + 17 * 65_536)),
        (1, &full[..65_537], Refusal::OutputTooSmall(8 + 65_536)),
    ] {
        assert_eq!(encode(1, msg_type, list, &mut out), Err(refusal));
        assert_eq!(out, [0xee; 100]);
    }
    assert_eq!(encode(1, 1, &[], &mut []), Err(Refusal::OutputTooSmall(8)));
    assert_eq!(encode_vec(1, 0, &[(4, &[0; 65_532])]), Err(unknown));
    assert_eq!(encode_vec(1, 1, &[(4, &[0; 65_532])]), Err(too_long));
}

#[test]
fn read_and_written_again() {
    for message in [FIRST_DATA, SECOND_DATA, FORM_DATA] {
        let message = octets(&[message]);
        let reading = read_vec(&message).unwrap();
        let account = reading.account();
        let list = listed(account);
        let (class, msg_type) = (account.message_class(), account.message_type());
        let written = encode_vec(class, msg_type, &list).unwrap();
        assert_eq!(written, octets(&[FORM_DATA]));
        let again = read_vec(&written).unwrap();
        assert_eq!(told(again.account()), told(account));
    }
}

/// RFC 4666, 3.1.2.
const PAIRS: [(u8, u8); 23] = [
    (0, 0),
    (0, 1),
    (1, 1),
    (2, 1),
    (2, 2),
    (2, 3),
    (2, 4),
    (2, 5),
    (2, 6),
    (3, 1),
    (3, 2),
    (3, 3),
    (3, 4),
    (3, 5),
    (3, 6),
    (4, 1),
    (4, 2),
    (4, 3),
    (4, 4),
    (9, 1),
    (9, 2),
    (9, 3),
    (9, 4),
];

#[test]
fn the_23_pairs_and_no_other() {
    let mut taken = Vec::new();
    for class in 0..=255 {
        for msg_type in 0..=255 {
            let message = [1, 0, class, msg_type, 0, 0, 0, 8];
            let form = settle_vec(&message);
            assert_eq!(encode_vec(class, msg_type, &[]), form);
            let read = read_vec(&message).map(|reading| {
                let (class, msg_type, parameters) = told(reading.account());
                assert!(parameters.is_empty() && reading.account().is_empty());
                vec![1, 0, class, msg_type, 0, 0, 0, 8]
            });
            assert_eq!(read, form);
            match form {
                Ok(form) => {
                    assert_eq!(form, message);
                    taken.push((class, msg_type));
                }
                Err(refusal) => {
                    assert_eq!(refusal, Refusal::InvalidMessageType { class, msg_type });
                    assert_eq!(*refusal.values(), [class.into(), msg_type.into()]);
                }
            }
        }
    }
    assert_eq!(taken, PAIRS);
}

#[test]
fn messages_spoilt_anywhere() {
    let mut state = 1u64;
    let mut random = |below: usize| {
        state = state
            .wrapping_mul(6364136223846793005)
            .wrapping_add(1442695040888963407);
        (state >> 33) as usize % below
    };
    let several = octets(&[DATA, LEAST, "01010006 4142ffff", LEAST]);
    let short = octets(&[DATA, LEAST, "01010006 4142ffff", SHORT]);
    let sources = [
        octets(&[FIRST_DATA]),
        octets(&[SECOND_DATA]),
        several,
        short,
    ];
    let (mut settled, mut too_short, mut others) = (0, 0, 0);
    for _ in 0..20_000 {
        let mut message = sources[random(sources.len())].clone();
        for _ in 0..random(4) {
            let at = random(message.len());
            message[at] = [0, 1, 4, 8, 15, 16, 0xff, random(256) as u8][random(8)];
        }
        if random(4) == 0 {
            message.truncate(random(message.len() + 1));
        }
        match (settle_vec(&message), read_vec(&message)) {
            (Ok(form), Ok(reading)) => {
                settled += 1;
                M3UA.gives(&message, &form);
                assert_eq!(settle_vec(&form), Ok(form.clone()));
                let of_form = read_vec(&form).unwrap();
                assert_eq!(told(of_form.account()), told(reading.account()));
                let account = reading.account();
                let (class, msg_type) = (account.message_class(), account.message_type());
                assert_eq!(encode_vec(class, msg_type, &listed(account)), Ok(form));
            }
            (Err(refusal), Err(other)) => {
                assert_eq!(refusal, other);
                match *refusal.values() {
                    [0x0210, 12, length] if refusal.number() == 6 && length < 12 => too_short += 1,
                    _ => others += 1,
                }
            }
            other => panic!("{:?}", other),
        }
    }
    assert!(settled > 1000 && too_short > 1000 && others > 1000);
}
