//! Settled forms: document 01's messages, refusals with their values, and the bounds of lengths.

mod octets;
mod settling;

use navrost::{read_vec, settle, settle_vec, Refusal};
use octets::{octets, ASP, CLDT, FIRST, FORM, SECOND};
use settling::SUA;

/// The message of these texts has this form.
fn gives(message: &[&str], form: &[&str]) {
    SUA.gives(&octets(message), &octets(form));
}

/// The message is refused so.
fn refuses(message: &[u8], refusal: Refusal, number: u8, values: &[u64]) {
    SUA.refuses(message, refusal, number, values);
}

#[test]
fn s1_to_s3_and_s5() {
    gives(&[ASP], &[ASP]);
    gives(&["01ff0301 00000000"], &[ASP]);
    gives(&[ASP, "aabbcc"], &[ASP]);
    gives(
        &[ASP, "00040005 41"],
        &["01000301 00000010 00040005 41000000"],
    );
}

#[test]
fn s4_and_s6_to_s9() {
    let refusal = Refusal::InvalidParameter { tag: 4, length: 3 };
    refuses(&octets(&[ASP, "00040003"]), refusal, 5, &[4, 3]);
    let refusal = Refusal::ParameterTooShort {
        tag: 4,
        expected: 6,
        actual: 5,
    };
    refuses(&octets(&[ASP, "00040006 41"]), refusal, 6, &[4, 6, 5]);
    let refusal = Refusal::InvalidVersion(2);
    refuses(&octets(&["02000101 00000008"]), refusal, 2, &[2]);
    let refusal = Refusal::InvalidMessageType {
        class: 1,
        msg_type: 1,
    };
    refuses(&octets(&["01000101 00000008"]), refusal, 4, &[1, 1]);
    let refusal = Refusal::TooShort {
        expected: 8,
        actual: 7,
    };
    refuses(&octets(&[ASP])[..7], refusal, 1, &[8, 7]);
}

#[test]
fn s10_the_last_ssn_holds() {
    gives(
        &[
            CLDT,
            "01020018 00020007 80030008 00000006 80030008 00000008",
        ],
        &["01000701 00000018 01020010 00020007 80030008 00000008"],
    );
}

#[test]
fn s11_digits() {
    let title = "01030018 00010004 8001000e 00000004";
    let form = "01000701 00000020 01030018 00010004 8001000e 00000004";
    gives(
        &[CLDT, title, "03000104 21f3aabb"],
        &[form, "03000104 21030000"],
    );
    gives(
        &[CLDT, title, "09000104 21030000"],
        &[form, "04000104 21030000"],
    );
    let message = octets(&[CLDT, title, "04000104 21f30000"]);
    refuses(&message, Refusal::InvalidBcdDigit(0x3f), 9, &[0x3f]);
}

#[test]
fn one_text_from_two_gateways() {
    gives(&[FIRST], &[FORM]);
    gives(&[SECOND], &[FORM]);
    gives(&[FORM], &[FORM]);

    // With hop counters of 15 and 14.
    let first = FIRST.replace("010b", "01010008 0000000f 010b");
    let second = SECOND.replace("010b", "01010008 ffffff0e 010b");
    gives(&[&first], &[FORM]);
    gives(&[&second], &[FORM]);
}

#[test]
fn hop_counters() {
    let data = "010b0006 48690000";
    let form = ["01000701 00000010", data];
    gives(&[CLDT, "01010008 0000000f", data], &form);
    gives(&[CLDT, data, "01010005 0e"], &form);
    let front = "01010004 01010008 0000000f";
    gives(&[CLDT, front, data, "01010008 0000000e"], &form);
    gives(&[CLDT, front], &["01000701 00000008"]);

    // A sub-parameter with that tag is no hop counter.
    let source = "01020010 00020000 01010008 0000000f";
    gives(&[CLDT, source], &["01000701 00000018", source]);

    let refusal = Refusal::InvalidParameter {
        tag: 0x0101,
        length: 3,
    };
    refuses(&octets(&[CLDT, "01010003"]), refusal, 5, &[0x0101, 3]);
    let refusal = Refusal::ParameterTooShort {
        tag: 0x0101,
        expected: 8,
        actual: 7,
    };
    let message = octets(&[CLDT, "01010008 000000"]);
    refuses(&message, refusal, 6, &[0x0101, 8, 7]);
}

#[test]
fn refusals_of_an_address() {
    let refusal = Refusal::InvalidRoutingIndicator(5);
    refuses(&octets(&[CLDT, "01020008 00050000"]), refusal, 8, &[5]);
    let refusal = Refusal::TooShort {
        expected: 4,
        actual: 3,
    };
    refuses(&octets(&[CLDT, "01020007 000100"]), refusal, 1, &[4, 3]);
    let refusal = Refusal::ParameterTooShort {
        tag: 0x8002,
        expected: 4,
        actual: 3,
    };
    let message = octets(&[CLDT, "01030010 00020002 80020007 01020300"]);
    refuses(&message, refusal, 6, &[0x8002, 4, 3]);
}

#[test]
fn s13_an_address_that_grows() {
    // An address of one unknown sub-parameter of this length. Written again it has its padding.
    let message = |length: u16| {
        let mut message = octets(&[CLDT, "0102"]);
        message.extend((8 + length).to_be_bytes());
        message.extend(octets(&["00020000 8004"]));
        message.extend(length.to_be_bytes());
        message.resize(16 + usize::from(length), 0x41);
        message
    };
    let refusal = Refusal::ValueTooLong {
        tag: 0x0102,
        length: 65_532,
    };
    refuses(&message(65_527), refusal, 10, &[0x0102, 65_532]);
    let mut form = message(65_524);
    form[4..8].copy_from_slice(&65_540u32.to_be_bytes());
    assert_eq!(settle_vec(&message(65_524)), Ok(form));
}

#[test]
fn lengths_at_their_bounds() {
    let refusal = Refusal::TooShort {
        expected: 8,
        actual: 0,
    };
    refuses(&[], refusal, 1, &[8, 0]);
    assert_eq!(settle(&[], &mut []), Err(refusal));

    // 16 parameters of 65,528 octets and one of the rest are 1,048,576 octets with the header.
    let mut message = octets(&[ASP]);
    for length in std::iter::repeat(65_528).take(16).chain([120u16]) {
        message.extend([0, 4]);
        message.extend(length.to_be_bytes());
        message.resize(message.len() + usize::from(length) - 4, 0x41);
    }
    assert_eq!(message.len(), 1_048_576);
    let mut form = message.clone();
    form[4..8].copy_from_slice(&1_048_576u32.to_be_bytes());
    assert_eq!(settle_vec(&message), Ok(form));
    assert_eq!(
        read_vec(&message).map(|reading| reading.account().len()),
        Ok(17)
    );

    message.push(0);
    refuses(
        &message,
        Refusal::TooManyOctets(1_048_577),
        12,
        &[1_048_577],
    );
    assert_eq!(
        read_vec(&message).unwrap_err(),
        Refusal::TooManyOctets(1_048_577)
    );
}
