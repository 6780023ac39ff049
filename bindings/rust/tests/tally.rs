//! The day tally: where messages go, what they add, and what is refused before a message is read.

mod octets;

use navrost::{tally, Members, Refusal, Row, Tally};
use octets::{octets, ASP, CLDT, FIRST, FORM, SECOND};

/// A destination with a title of the digits 447700; one with a title of 49170, without its include
/// bit; and one with the include bit of a title that is not there.
const FIRST_TITLE: &str = "01030018 00010004 8001000f 00000004 06000104 44770000";
const OTHER_TITLE: &str = "01030018 00010000 8001000f 00000004 05000104 94710000";
const NO_TITLE: &str = "01030008 00010004";

const MEMBERS: Members<'_> = Members {
    digits: b"4444917",
    lengths: &[2, 1, 4],
};
const UNPLACED: usize = 3;
const REFUSED: usize = 4;

/// The message of these texts adds itself and so many octets to this row, and to no other.
fn adds(message: &[&str], row: usize, more: u64) {
    let message = octets(message);
    let (mut messages, mut held) = ([7; 5], [100; 5]);
    let (mut expected, mut octets) = (messages, held);
    expected[row] += 1;
    octets[row] += more;
    assert_eq!(tally(MEMBERS, &message, &mut messages, &mut held), Ok(row));
    assert_eq!((messages, held), (expected, octets));
}

/// Refused, for a message with a form and for one without, with the rows as they were.
fn refuses(members: Members<'_>, messages: &[u64], held: &[u64]) {
    for message in [octets(&[FIRST]), vec![]] {
        let (mut m, mut o) = (messages.to_vec(), held.to_vec());
        let refusal = tally(members, &message, &mut m, &mut o).unwrap_err();
        assert_eq!(refusal, Refusal::InvalidTally);
        assert_eq!((refusal.number(), &*refusal.values()), (16, &[][..]));
        assert_eq!((&*m, &*o), (messages, held));
    }
}

#[test]
fn the_longest_prefix() {
    for message in [FIRST, SECOND, FORM] {
        adds(&[message], 0, 2);
    }
    adds(&[CLDT, FIRST_TITLE], 0, 0);
    adds(&[CLDT, OTHER_TITLE], 2, 0);
    // 4917, 491, none and 59170.
    adds(&[CLDT, &OTHER_TITLE.replace("0500", "0400")], 2, 0);
    adds(&[CLDT, &OTHER_TITLE.replace("0500", "0300")], 1, 0);
    adds(&[CLDT, &OTHER_TITLE.replace("0500", "0000")], UNPLACED, 0);
    adds(&[CLDT, &OTHER_TITLE.replace("9471", "9571")], UNPLACED, 0);
}

#[test]
fn leading_zeros() {
    for (digits, lengths, rows) in [
        (&b"000"[..], &[2, 1][..], [2, 1, 0, 0]),
        (b"000", &[3], [1, 1, 1, 0]),
    ] {
        for (count, row) in (0..4).zip(rows) {
            let message = octets(&[
                CLDT,
                "01030018 00010004 8001000e 00000004",
                &format!("0{}000104 00000000", count),
            ]);
            let (mut messages, mut held) = ([0; 4], [0; 4]);
            let (m, o) = (&mut messages, &mut held);
            let places = lengths.len() + 2;
            let members = Members { digits, lengths };
            assert_eq!(
                tally(members, &message, &mut m[..places], &mut o[..places]),
                Ok(row)
            );
        }
    }
}

#[test]
fn the_first_destination() {
    adds(&[CLDT, FIRST_TITLE, OTHER_TITLE], 0, 0);
    adds(&[CLDT, OTHER_TITLE, FIRST_TITLE], 2, 0);
    adds(&[CLDT, NO_TITLE, FIRST_TITLE], UNPLACED, 0);
    // A source address is none, and only a CLDT is placed.
    adds(&[CLDT, &FIRST_TITLE.replace("0103", "0102")], UNPLACED, 0);
    adds(&["01000702 00000000", FIRST_TITLE], UNPLACED, 0);
    adds(&[ASP, FIRST_TITLE], UNPLACED, 0);
    adds(&[CLDT], UNPLACED, 0);
}

#[test]
fn the_first_data() {
    let data = "010b0007 41424300 010b0005 41000000";
    adds(&[CLDT, FIRST_TITLE, data], 0, 3);
    adds(&[CLDT, "010b0004", FIRST_TITLE, data], 0, 0);
    adds(&[ASP, data], UNPLACED, 3);
    let mut message = octets(&[CLDT, FIRST_TITLE, "010bffff"]);
    message.resize(message.len() + 65_531, 0x41);
    let (mut messages, mut held) = ([0; 5], [0; 5]);
    assert_eq!(tally(MEMBERS, &message, &mut messages, &mut held), Ok(0));
    assert_eq!((messages[0], held[0]), (1, 65_531));
}

#[test]
fn refused_messages() {
    let data = "010b0007 41424300";
    adds(&[], REFUSED, 0);
    adds(&[CLDT, FIRST_TITLE, data, "01030008 00050000"], REFUSED, 0);
    // A `?` in the source.
    let source = "01020018 00010004 8001000e 00000004 04000104 21f30000";
    adds(&[CLDT, FIRST_TITLE, data, source], REFUSED, 0);
    let (mut messages, mut held) = ([0; 5], [0; 5]);
    let message = vec![0; 1_048_577];
    assert_eq!(
        tally(MEMBERS, &message, &mut messages, &mut held),
        Ok(REFUSED)
    );
}

#[test]
fn member_lists() {
    let refused = |digits: &[u8], lengths: &[u8]| {
        let rows = vec![0; lengths.len() + 2];
        refuses(Members { digits, lengths }, &rows, &rows);
    };
    refused(b"", &[]);
    refused(b"1", &[1, 0]);
    refused(b"1234567890123456", &[16]);
    refused(b"12", &[1]);
    refused(b"12", &[1, 2]);
    refused(&[b'1'; 258], &[2]);
    refused(b"1234", &[2, 1]);
    refused(b"121", &[1, 1, 1]);
    refused(b"1212", &[2, 2]);
    for character in *b"/:a\0\xff" {
        refused(&[b'1', character], &[2]);
    }
    let digits: Vec<u8> = (10..75)
        .flat_map(|n: u8| [b'0' + n / 10, b'0' + n % 10])
        .collect();
    refused(&digits, &[2; 65]);
    let members = Members {
        digits: &digits[..128],
        lengths: &[2; 64],
    };
    let (mut messages, mut held) = ([0; 66], [0; 66]);
    let message = octets(&[FIRST]);
    assert_eq!(tally(members, &message, &mut messages, &mut held), Ok(34));
}

#[test]
fn rows() {
    for length in [0, 4, 6] {
        refuses(MEMBERS, &vec![0; length], &[0; 5]);
        refuses(MEMBERS, &[0; 5], &vec![0; length]);
        refuses(MEMBERS, &vec![0; length], &vec![0; length]);
    }
    refuses(MEMBERS, &[0, 4_294_967_295, 0, 0, 0], &[0; 5]);
    refuses(MEMBERS, &[1, 0, 0, 0, 4_294_967_294], &[0; 5]);
    refuses(MEMBERS, &[u64::MAX, 1, 0, 0, 0], &[0; 5]);
    refuses(MEMBERS, &[1 << 63, 0, 1 << 63, 0, 0], &[0; 5]);
    refuses(MEMBERS, &[0; 5], &[0, 0, 0, 0, 1]);
    refuses(MEMBERS, &[1; 5], &[65_531, 65_532, 0, 0, 0]);

    // One message less, and as many octets as may be.
    let (mut messages, mut held) = ([1, 0, 4_294_967_293, 0, 0], [0; 5]);
    held[2] = 65_531 * messages[2];
    let message = octets(&[FIRST]);
    assert_eq!(tally(MEMBERS, &message, &mut messages, &mut held), Ok(0));
    assert_eq!((messages[0], held[0]), (2, 2));
    refuses(MEMBERS, &messages, &held);
}

#[test]
fn a_day() {
    let mut day = Tally::new(&["44", "4", "4917"]).unwrap();
    assert!(day.rows().all(|row| row == Row::default()));
    for (message, row) in [(FIRST, 0), (ASP, UNPLACED), ("01", REFUSED), (SECOND, 0)] {
        assert_eq!(day.add(&octets(&[message])), Ok(row));
    }
    let row = |messages, octets| Row { messages, octets };
    let none = row(0, 0);
    let rows: Vec<Row> = day.rows().collect();
    assert_eq!(rows, [row(2, 4), none, none, row(1, 0), row(1, 0)]);
    assert_eq!(day.rows().len(), 5);
    assert_eq!((day.unplaced(), day.refused()), (rows[3], rows[4]));
}

#[test]
fn a_day_without_a_member_list() {
    let refusal = Err(Refusal::InvalidTally);
    assert_eq!(Tally::new::<&str>(&[]), refusal);
    assert_eq!(Tally::new(&["44", "4", "44"]), refusal);
    assert_eq!(Tally::new(&[""]), refusal);
    assert_eq!(Tally::new(&["+44"]), refusal);
    for length in [16, 255, 256, 257, 271] {
        assert_eq!(Tally::new(&["4".repeat(length)]), refusal);
    }
    assert!(Tally::new(&["4".repeat(15)]).is_ok());
}
