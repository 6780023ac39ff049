//! Writing from a list of parameters.

mod octets;

use navrost::{encode, encode_vec, push_parameter, read_vec, Refusal};
use octets::{octets, FIRST};

const UNKNOWN: Refusal = Refusal::InvalidMessageType {
    class: 7,
    msg_type: 9,
};

#[test]
fn a_list() {
    let mut list = Vec::new();
    push_parameter(&mut list, 0x0102, b"").unwrap();
    push_parameter(&mut list, 0x010b, b"Hello").unwrap();
    assert_eq!(list, octets(&["0102 00000000 010b 00000005 48656c6c6f"]));
    let message = octets(&["01000701 00000018 01020004 010b0009 48656c6c 6f000000"]);

    let mut out = [0xee; 26];
    assert_eq!(encode(7, 1, &list, &mut out), Ok(24));
    assert_eq!(out[..24], message);
    assert_eq!(out[24..], [0xee; 2]);
    assert_eq!(encode(7, 1, &list, &mut out[..24]), Ok(24));
    assert_eq!(
        encode_vec(7, 1, &[(0x0102, b""), (0x010b, b"Hello")]),
        Ok(message)
    );
}

#[test]
fn no_parameters() {
    let message = octets(&["01000301 00000008"]);
    assert_eq!(encode_vec(3, 1, &[]), Ok(message));
    assert_eq!(encode(3, 1, &[], &mut []), Err(Refusal::OutputTooSmall(8)));
    assert_eq!(encode(7, 9, &[], &mut []), Err(UNKNOWN));
}

#[test]
fn refusals_in_order_and_nothing_written() {
    let long = vec![0; 65_532];
    let mut tall = Vec::new();
    push_parameter(&mut tall, 4, &long).unwrap();
    let mut broken = tall.clone();
    broken.extend([0, 4, 0]);
    let too_long = Refusal::ValueTooLong {
        tag: 4,
        length: 65_532,
    };
    let mut full = Vec::new();
    for _ in 0..17 {
        push_parameter(&mut full, 4, &long[..65_531]).unwrap();
    }
    let mut out = [0xee; 100];
    for (msg_type, list, refusal) in [
        (9, &broken[..], UNKNOWN),
        (1, &broken, Refusal::OutsideSlice),
        (1, &tall, too_long),
        (1, &full, Refusal::TooManyOctets(8 + 17 * 65_536)),
        (1, &full[..65_537], Refusal::OutputTooSmall(8 + 65_536)),
    ] {
        assert_eq!(encode(7, msg_type, list, &mut out), Err(refusal));
        assert_eq!(out, [0xee; 100]);
    }
    assert_eq!(encode_vec(7, 9, &[(4, &long)]), Err(UNKNOWN));
    assert_eq!(encode_vec(7, 1, &[(5, b""), (4, &long)]), Err(too_long));
    let seventeen = [(4, &long[..65_531]); 17];
    assert_eq!(
        encode_vec(7, 1, &seventeen),
        Err(Refusal::TooManyOctets(8 + 17 * 65_536))
    );
    assert_eq!(
        encode_vec(7, 1, &seventeen[..15]).map(|m| m.len()),
        Ok(8 + 15 * 65_536)
    );
}

/// A value above what a list can tell. It is never touched, so it takes addresses and no memory.
#[test]
fn a_value_of_four_gibibytes() {
    if Vec::<u8>::new().try_reserve_exact(1 << 32).is_err() {
        return;
    }
    let value = vec![0; 1 << 32];
    let refusal = |tag| Refusal::ValueTooLong {
        tag,
        length: 1 << 32,
    };
    let mut list = vec![1, 2, 3];
    assert_eq!(push_parameter(&mut list, 4, &value), Err(refusal(4)));
    assert_eq!(list, [1, 2, 3]);
    assert_eq!(encode_vec(7, 9, &[(4, &value)]), Err(UNKNOWN));
    assert_eq!(encode_vec(7, 1, &[(4, b"A"), (4, &value)]), Err(refusal(4)));
    let first = Refusal::ValueTooLong {
        tag: 6,
        length: 65_532,
    };
    assert_eq!(
        encode_vec(7, 1, &[(6, &[0; 65_532]), (4, &value)]),
        Err(first)
    );
    assert_eq!(
        encode_vec(7, 1, &[(5, &value), (6, &[0; 65_532])]),
        Err(refusal(5))
    );
}

#[test]
fn read_and_written_again() {
    let message = octets(&[FIRST]);
    let reading = read_vec(&message).unwrap();
    let account = reading.account();
    let list: Vec<_> = account.parameters().map(|p| (p.tag, p.value)).collect();
    let written = encode_vec(account.message_class(), account.message_type(), &list).unwrap();

    // The values are kept as they are, with the padding inside the addresses; only the message's
    // own length and the padding of its last parameter are new.
    let mut expected = message.clone();
    expected.extend([0, 0]);
    expected[7] = 0x58;
    assert_eq!(written, expected);
    let again = read_vec(&written).unwrap();
    assert!(again.account().parameters().eq(account.parameters()));
}
