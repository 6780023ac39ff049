//! SUA and M3UA side by side: a day of both, and what each says of the other's messages.

mod octets;
mod settling;

use navrost::{m3ua, Refusal};
use octets::{octets, ASP, CLDT, DATA, FIRST, FIRST_DATA, FORM, FORM_DATA, SECOND, SECOND_DATA};
use settling::{Settling, M3UA, SUA};

/// A message of a family, and its form.
type Message = (&'static Settling, &'static [&'static str], &'static str);

/// A hop counter, and Data.
const COUNTED: &str = "01010008 0000000f 010b0006 48690000";

const DAY: [Message; 12] = [
    (&SUA, &[FIRST], FORM),
    (&M3UA, &[FIRST_DATA], FORM_DATA),
    (
        &M3UA,
        &[ASP, "00040005 41"],
        "01000301 00000010 00040005 41000000",
    ),
    (
        &SUA,
        &[ASP, "00040005 41"],
        "01000301 00000010 00040005 41000000",
    ),
    (&SUA, &[SECOND], FORM),
    (&SUA, &["01ff0301 00000000 aabbcc"], ASP),
    (&M3UA, &["01ff0301 00000000 aabbcc"], ASP),
    (&M3UA, &[SECOND_DATA], FORM_DATA),
    (
        &SUA,
        &[CLDT, COUNTED],
        "01000701 00000010 010b0006 48690000",
    ),
    (
        &M3UA,
        &[DATA, COUNTED],
        "01000101 00000018 01010008 0000000f 010b0006 48690000",
    ),
    (&SUA, &[FORM], FORM),
    (&M3UA, &[FORM_DATA], FORM_DATA),
];

#[test]
fn a_day_of_both() {
    for (family, message, form) in DAY {
        family.gives(&octets(message), &octets(&[form]));
    }
    // The entries keep nothing: in the other order the forms are the same.
    for (family, message, form) in DAY.iter().rev() {
        family.gives(&octets(message), &octets(&[form]));
    }
}

#[test]
fn the_other_family() {
    let unknown = |class, msg_type| Refusal::InvalidMessageType { class, msg_type };
    for message in [FIRST, SECOND, FORM] {
        M3UA.refuses(&octets(&[message]), unknown(7, 1), 4, &[7, 1]);
    }
    for message in [FIRST_DATA, SECOND_DATA, FORM_DATA] {
        SUA.refuses(&octets(&[message]), unknown(1, 1), 4, &[1, 1]);
    }
    let cldt = octets(&[FIRST]);
    assert_eq!(m3ua::read_vec(&cldt).unwrap_err(), unknown(7, 1));
    assert_eq!(m3ua::encode_vec(7, 1, &[]), Err(unknown(7, 1)));
    let data = octets(&[FIRST_DATA]);
    assert_eq!(navrost::read_vec(&data).unwrap_err(), unknown(1, 1));
    assert_eq!(navrost::encode_vec(1, 1, &[]), Err(unknown(1, 1)));
}

#[test]
fn an_asp_up_is_of_both() {
    let message = octets(&[ASP, "00040005 41"]);
    let sua = navrost::read_vec(&message).unwrap();
    let m3ua = m3ua::read_vec(&message).unwrap();
    let (sua, m3ua) = (sua.account(), m3ua.account());
    assert_eq!((sua.message_class(), sua.message_type()), (3, 1));
    assert_eq!((m3ua.message_class(), m3ua.message_type()), (3, 1));
    let of_sua: Vec<_> = sua.parameters().map(|p| (p.tag, p.value)).collect();
    let of_m3ua: Vec<_> = m3ua.parameters().map(|p| (p.tag, p.value)).collect();
    assert_eq!(of_sua, [(4, &b"A"[..])]);
    assert_eq!(of_m3ua, of_sua);
}

/// Of one type, but a tag is not the same to both.
#[test]
fn tags_that_one_family_knows() {
    // A hop counter, an address with a spare bit, and a Protocol Data of four octets.
    let counter = octets(&[ASP, "01010008 0000000f"]);
    SUA.gives(&counter, &octets(&[ASP]));
    M3UA.gives(&counter, &octets(&["01000301 00000010 01010008 0000000f"]));

    let source = octets(&[ASP, "01020008 0001fffa"]);
    SUA.gives(&source, &octets(&["01000301 00000010 01020008 00010002"]));
    M3UA.gives(&source, &octets(&["01000301 00000010 01020008 0001fffa"]));

    let no_address = octets(&[ASP, "01020008 00050000"]);
    let indicator = Refusal::InvalidRoutingIndicator(5);
    SUA.refuses(&no_address, indicator, 8, &[5]);
    M3UA.gives(
        &no_address,
        &octets(&["01000301 00000010 01020008 00050000"]),
    );

    let short = octets(&[ASP, "02100008 00000001"]);
    let refusal = Refusal::ParameterTooShort {
        tag: m3ua::PROTOCOL_DATA,
        expected: 12,
        actual: 4,
    };
    SUA.gives(&short, &octets(&["01000301 00000010 02100008 00000001"]));
    M3UA.refuses(&short, refusal, 6, &[0x0210, 12, 4]);
}

#[test]
fn the_pairs_of_both() {
    let (mut sua, mut m3ua, mut both) = (Vec::new(), Vec::new(), 0);
    for class in 0..=255 {
        for msg_type in 0..=255 {
            let message = [1, 0, class, msg_type, 0, 0, 0, 8];
            match (navrost::settle_vec(&message), m3ua::settle_vec(&message)) {
                (Ok(one), Ok(other)) => {
                    assert_eq!(one, other);
                    both += 1;
                }
                (Ok(_), Err(_)) => sua.push((class, msg_type)),
                (Err(_), Ok(_)) => m3ua.push((class, msg_type)),
                (Err(one), Err(other)) => assert_eq!(one, other),
            }
        }
    }
    let connectionless = [(7, 1), (7, 2)];
    let connections = (1..=11).map(|msg_type| (8, msg_type));
    assert!(sua
        .into_iter()
        .eq(connectionless.into_iter().chain(connections)));
    assert_eq!((m3ua, both), (vec![(1, 1)], 22));
}
