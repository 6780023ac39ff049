//! Reading: the account's types, its refusals, and messages spoilt anywhere.

mod octets;

use navrost::{
    encode_vec, read, read_vec, settle_vec, settled_length, Account, Address, GlobalTitle, Reading,
    Refusal, DESTINATION_ADDRESS, SOURCE_ADDRESS,
};
use octets::{octets, ASP, CLDT, FIRST, FORM, SECOND};

/// The tag of the parameter that a form leaves out.
const HOP_COUNTER: u16 = 0x0101;

#[test]
fn a_message_with_no_parameters() {
    let message = octets(&[ASP]);
    let reading = read_vec(&message).unwrap();
    let account = reading.account();
    assert_eq!((account.message_class(), account.message_type()), (3, 1));
    assert_eq!((account.len(), account.is_empty()), (0, true));
    assert_eq!(account.parameters().next(), None);
}

#[test]
fn parameters_in_wire_order() {
    let message = octets(&[ASP, "00040005 41ffffff 00110004 00040006 4243"]);
    let mut room = [0; 36];
    let account = read(&message, &mut room).unwrap();
    assert_eq!((account.len(), account.is_empty()), (3, false));
    let mut parameters = account.parameters();
    assert_eq!(parameters.len(), 3);
    let read: Vec<_> = parameters
        .by_ref()
        .map(|p| (p.tag, p.value, p.address))
        .collect();
    assert_eq!(
        read,
        [(4, &b"A"[..], None), (0x11, b"", None), (4, b"BC", None)]
    );
    assert_eq!((parameters.len(), parameters.next()), (0, None));

    // The values lie in the message.
    let value = account.parameters().next().unwrap().value;
    assert!(std::ptr::eq(value, &message[12..13]));
}

#[test]
fn both_addresses() {
    for message in [octets(&[FIRST]), octets(&[SECOND]), octets(&[FORM])] {
        let reading = read_vec(&message).unwrap();
        let account = reading.account();
        let parameters: Vec<_> = account.parameters().collect();
        let tags: Vec<_> = parameters.iter().map(|p| p.tag).collect();
        assert_eq!(tags, [SOURCE_ADDRESS, DESTINATION_ADDRESS, 0x010b]);
        let expected = [("12025550142", 8), ("447700900123", 6)];
        for (parameter, (digits, ssn)) in parameters.iter().zip(expected) {
            let address = parameter.address.as_ref().unwrap();
            assert_eq!(address.routing_indicator, 1);
            assert!(address.include_gt && address.include_ssn);
            let title = GlobalTitle {
                gti: 4,
                translation_type: 0,
                numbering_plan: 1,
                nature_of_address: 4,
                digits,
            };
            assert_eq!(address.global_title, Some(title));
            assert_eq!((address.point_code, address.ssn), (None, Some(ssn)));
            assert_eq!(address.others.len(), 0);
        }
        assert_eq!(parameters[2].value, b"Hi");
        assert_eq!(parameters[2].address, None);
    }
}

#[test]
fn hop_counters_are_read_and_written() {
    let message = octets(&[
        "01000701 0000001c",
        "01010008 0000000f 010b0006 48690000 01010004",
    ]);
    let reading = read_vec(&message).unwrap();
    let parameters = reading.account().parameters();
    let list: Vec<_> = parameters.map(|p| (p.tag, p.value)).collect();
    let counter = &[0, 0, 0, 15][..];
    assert_eq!(
        list,
        [(HOP_COUNTER, counter), (0x010b, b"Hi"), (HOP_COUNTER, b"")]
    );
    assert_eq!(encode_vec(7, 1, &list), Ok(message.clone()));
}

/// The address of the first parameter.
fn first_address<'a>(reading: &'a Reading<'_>) -> Address<'a> {
    let first = reading.account().parameters().next();
    first.unwrap().address.unwrap()
}

#[test]
fn s10_the_last_ssn_holds() {
    let message = octets(&[
        CLDT,
        "01020018 00020007 80030008 00000006 80030008 00000008",
    ]);
    let reading = read_vec(&message).unwrap();
    let address = first_address(&reading);
    assert_eq!(address.routing_indicator, 2);
    assert!(address.include_gt && address.include_pc && address.include_ssn);
    assert_eq!((address.global_title, address.point_code), (None, None));
    assert_eq!(address.ssn, Some(8));
}

#[test]
fn s11_digits() {
    let title = "01030018 00010004 8001000e 00000004";
    for (rest, digits) in [
        ("03000104 21f3aabb", "123"),
        ("04000104 21f30000", "123?"),
        ("09000104 21030000", "1230"),
        ("00000104 21030000", ""),
    ] {
        let message = octets(&[CLDT, title, rest]);
        let reading = read_vec(&message).unwrap();
        let address = first_address(&reading);
        assert_eq!(address.global_title.unwrap().digits, digits);
    }
}

#[test]
fn point_code_and_others() {
    let message = octets(&[
        CLDT,
        "0103002c 0004fffa 80040008 c0000201 8002000a 00012345 99990000",
        "80030008 00000092 80050006 61622020",
    ]);
    let reading = read_vec(&message).unwrap();
    let address = first_address(&reading);
    assert_eq!(address.routing_indicator, 4);
    assert!(!address.include_gt && address.include_pc && !address.include_ssn);
    assert_eq!(address.global_title, None);
    assert_eq!(
        (address.point_code, address.ssn),
        (Some(0x12345), Some(0x92))
    );
    let mut others = address.others.clone();
    assert_eq!(others.len(), 2);
    let read: Vec<_> = others
        .by_ref()
        .map(|other| (other.tag, other.value))
        .collect();
    assert_eq!(read, [(0x8004, &[0xc0, 0, 2, 1][..]), (0x8005, b"ab")]);
    assert_eq!((others.len(), others.next()), (0, None));
    assert_eq!(address.others.len(), 2);

    // Addresses are equal where what they hand out is, wherever it lies.
    let form = settle_vec(&message).unwrap();
    let again = read_vec(&form).unwrap();
    assert_eq!(first_address(&again), address);
}

#[test]
fn refusals_leave_the_account_as_it_was() {
    let message = octets(&[FIRST]);
    let needed = match read(&message, &mut []) {
        Err(Refusal::OutputTooSmall(needed)) => needed as usize,
        other => panic!("{:?}", other),
    };
    let mut room = vec![0xee; needed + 2];
    assert_eq!(
        read(&message, &mut room[..needed - 1]).unwrap_err(),
        Refusal::OutputTooSmall(needed as u64)
    );
    assert!(room.iter().all(|&octet| octet == 0xee));
    assert_eq!(read(&message, &mut room[..needed]).unwrap().len(), 3);
    assert_eq!(read(&message, &mut room).unwrap().parameters().count(), 3);
    assert_eq!(room[needed..], [0xee; 2]);

    let mut room = [0xee; 50];
    for (message, number, values) in [
        (octets(&[]), 1, &[8, 0][..]),
        (octets(&["02000301 00000008"]), 2, &[2]),
        (octets(&["01000701"]), 1, &[8, 4]),
        (octets(&["01000a01 00000008"]), 4, &[10, 1]),
        (octets(&[CLDT, "01020008 00050000"]), 8, &[5]),
        (octets(&[CLDT, "01020008 00050000 00040003"]), 5, &[4, 3]),
        (
            octets(&[CLDT, "0103000c 00010000 8001000c"]),
            6,
            &[0x8001, 12, 4],
        ),
        (octets(&[CLDT, "0103000d 00010000 80010005 41"]), 1, &[8, 1]),
    ] {
        let refusal = read(&message, &mut room).unwrap_err();
        assert_eq!((refusal.number(), &*refusal.values()), (number, values));
        assert_eq!(room, [0xee; 50]);
        assert_eq!(read_vec(&message).unwrap_err(), refusal);
    }
}

#[test]
fn accounts_as_long_as_they_can_be() {
    // Parameters of four octets; addresses of four; and addresses with empty others.
    for unit in [
        "00040004",
        "01020008 00000000",
        "0102000c 00000000 80040004",
    ] {
        let mut message = octets(&[CLDT]);
        for _ in 0..1000 {
            message.extend(octets(&[unit]));
        }
        let reading = read_vec(&message).unwrap();
        assert_eq!(reading.account().parameters().count(), 1000);
    }
}

/// What an account hands out, without the padding, the order, the places and the hop counters, which
/// mean nothing.
fn told(account: Account<'_>) -> String {
    let meant = account.parameters().filter(|p| p.tag != HOP_COUNTER);
    let parameters = meant.map(|p| match p.address {
        Some(address) => format!("{:x} {:?}", p.tag, address),
        None => format!("{:x} {:x?}", p.tag, p.value),
    });
    format!(
        "{} {} {:?}",
        account.message_class(),
        account.message_type(),
        parameters.collect::<Vec<_>>()
    )
}

#[test]
fn messages_spoilt_anywhere() {
    let mut state = 1u64;
    let mut random = |below: usize| {
        state = state
            .wrapping_mul(6364136223846793005)
            .wrapping_add(1442695040888963407);
        (state >> 33) as usize % below
    };
    let others = octets(&[
        CLDT,
        "01020018 00020007 80040006 41420000 80020008 00000102",
    ]);
    let sources = [octets(&[FIRST]), octets(&[SECOND]), others];
    let (mut settled, mut left_out) = (0, 0);
    for _ in 0..20_000 {
        let mut message = sources[random(sources.len())].clone();
        for _ in 0..random(4) {
            let at = random(message.len());
            message[at] = [0, 1, 4, 8, 12, 0x80, 0xff, random(256) as u8][random(8)];
        }
        if random(4) == 0 {
            message.truncate(random(message.len() + 1));
        }
        let reading = read_vec(&message);
        match (settle_vec(&message), &reading) {
            (Ok(form), Ok(reading)) => {
                settled += 1;
                assert_eq!(settled_length(&message), Ok(form.len()));
                assert_eq!(settle_vec(&form), Ok(form.clone()));
                let of_form = read_vec(&form).unwrap();
                let account = of_form.account();
                assert_eq!(account.parameters().count(), account.len());
                assert_eq!(told(account), told(reading.account()));
                assert!(account.parameters().all(|p| p.tag != HOP_COUNTER));
                left_out += reading.account().len() - account.len();

                // A form is what encoding gives of the parameters that it is read as.
                let list: Vec<_> = account.parameters().map(|p| (p.tag, p.value)).collect();
                let (class, msg_type) = (account.message_class(), account.message_type());
                assert_eq!(encode_vec(class, msg_type, &list), Ok(form.clone()));
            }
            (Err(Refusal::InvalidBcdDigit(octet)), Ok(reading)) => {
                assert_eq!(octet, b'?');
                assert!(told(reading.account()).contains('?'));
            }
            (Err(refusal), Err(other)) => assert!(
                refusal == *other || refusal.number() == 9,
                "{:?} and {:?}",
                refusal,
                other
            ),
            other => panic!("{:?}", other),
        }
    }
    assert!(settled > 1000 && left_out > 0);
}
