//! Why a call refuses.

use std::error::Error;
use std::fmt;
use std::ops::Deref;

use crate::entries::Report;

/// Why a call refuses. Nothing has then been written.
///
/// The cases stand in the order of their numbers, from 1. The calls of this crate never refuse as
/// 3, 7, 11 or 13, which belong to calls of the codec that have no entry for other languages.
#[derive(Debug, Clone, Copy, PartialEq, Eq, Hash)]
#[non_exhaustive]
pub enum Refusal {
    /// 1: the octets are fewer than an item of this kind has at least.
    TooShort {
        /// The least number of octets.
        expected: u64,
        /// The octets there.
        actual: u64,
    },
    /// 2: a header's version is not 1.
    InvalidVersion(u8),
    /// 3: RFC 3868 has no such message class.
    InvalidMessageClass(u8),
    /// 4: RFC 3868, or RFC 4666 for M3UA, has no such message type in this class.
    InvalidMessageType {
        /// The message class.
        class: u8,
        /// The message type.
        msg_type: u8,
    },
    /// 5: a parameter's length is below 4, which its tag and length take.
    InvalidParameter {
        /// The parameter's tag.
        tag: u16,
        /// The length that it tells.
        length: u16,
    },
    /// 6: a parameter goes on beyond the octets; or a point code or SSN has under four octets, or a
    /// Protocol Data of M3UA under twelve.
    ParameterTooShort {
        /// The parameter's tag.
        tag: u16,
        /// The length that it tells; or 4, or 12.
        expected: u64,
        /// The octets from its tag to the end; or those of the point code, SSN or Protocol Data.
        actual: u64,
    },
    /// 7: the message has no parameter with this tag.
    MissingParameter(u16),
    /// 8: a routing indicator above 4.
    InvalidRoutingIndicator(u16),
    /// 9: a character that is written as no digit.
    InvalidBcdDigit(u8),
    /// 10: a value of more than 65,531 octets, which a parameter's length cannot tell.
    ValueTooLong {
        /// The parameter's tag.
        tag: u16,
        /// The value's octets.
        length: u64,
    },
    /// 11: more than 255 digits.
    TooManyDigits(u64),
    /// 12: more than 1,048,576 octets.
    TooManyOctets(u64),
    /// 13: the table lent has less room than this.
    TableTooSmall(u64),
    /// 14: the output lent is shorter than this.
    OutputTooSmall(u64),
    /// 15: a record of the list is not finished.
    OutsideSlice,
    /// 16: a member list or rows outside the rules of [`tally`](crate::tally()).
    InvalidTally,
    /// 17: an address that does not convert by the rules of [`to_sccp`](crate::to_sccp).
    UnconvertibleAddress,
    /// 18: octets that are no SCCP party address, or one that does not convert by the rules of
    /// [`from_sccp`](crate::from_sccp).
    InvalidSccpAddress,
}

impl Refusal {
    /// The refusal's number, 1 to 18.
    pub fn number(&self) -> u8 {
        self.numbered().0
    }

    /// The refusal's values, in the order of its fields.
    pub fn values(&self) -> Values {
        self.numbered().1
    }

    fn numbered(&self) -> (u8, Values) {
        match *self {
            Refusal::TooShort { expected, actual } => (1, Values::two(expected, actual)),
            Refusal::InvalidVersion(octet) => (2, Values::one(octet.into())),
            Refusal::InvalidMessageClass(octet) => (3, Values::one(octet.into())),
            Refusal::InvalidMessageType { class, msg_type } => {
                (4, Values::two(class.into(), msg_type.into()))
            }
            Refusal::InvalidParameter { tag, length } => {
                (5, Values::two(tag.into(), length.into()))
            }
            Refusal::ParameterTooShort {
                tag,
                expected,
                actual,
            } => (6, Values::three(tag.into(), expected, actual)),
            Refusal::MissingParameter(tag) => (7, Values::one(tag.into())),
            Refusal::InvalidRoutingIndicator(indicator) => (8, Values::one(indicator.into())),
            Refusal::InvalidBcdDigit(octet) => (9, Values::one(octet.into())),
            Refusal::ValueTooLong { tag, length } => (10, Values::two(tag.into(), length)),
            Refusal::TooManyDigits(count) => (11, Values::one(count)),
            Refusal::TooManyOctets(length) => (12, Values::one(length)),
            Refusal::TableTooSmall(count) => (13, Values::one(count)),
            Refusal::OutputTooSmall(length) => (14, Values::one(length)),
            Refusal::OutsideSlice => (15, Values::none()),
            Refusal::InvalidTally => (16, Values::none()),
            Refusal::UnconvertibleAddress => (17, Values::none()),
            Refusal::InvalidSccpAddress => (18, Values::none()),
        }
    }

    /// The refusal of a report. Each value has the width of its field, so that no cast cuts one
    /// short. A number above 18 does not come; it would be taken as 18.
    fn of(report: Report) -> Refusal {
        let [number, a, b, c] = report;
        match number {
            1 => Refusal::TooShort {
                expected: a,
                actual: b,
            },
            2 => Refusal::InvalidVersion(a as u8),
            3 => Refusal::InvalidMessageClass(a as u8),
            4 => Refusal::InvalidMessageType {
                class: a as u8,
                msg_type: b as u8,
            },
            5 => Refusal::InvalidParameter {
                tag: a as u16,
                length: b as u16,
            },
            6 => Refusal::ParameterTooShort {
                tag: a as u16,
                expected: b,
                actual: c,
            },
            7 => Refusal::MissingParameter(a as u16),
            8 => Refusal::InvalidRoutingIndicator(a as u16),
            9 => Refusal::InvalidBcdDigit(a as u8),
            10 => Refusal::ValueTooLong {
                tag: a as u16,
                length: b,
            },
            11 => Refusal::TooManyDigits(a),
            12 => Refusal::TooManyOctets(a),
            13 => Refusal::TableTooSmall(a),
            14 => Refusal::OutputTooSmall(a),
            15 => Refusal::OutsideSlice,
            16 => Refusal::InvalidTally,
            17 => Refusal::UnconvertibleAddress,
            _ => {
                debug_assert_eq!(number, 18, "no refusal has this number");
                Refusal::InvalidSccpAddress
            }
        }
    }
}

/// How many octets of an output of this length were written, or why none were; and likewise the
/// row that gained, which is at most the last.
pub(crate) fn answer(report: Report, most: usize) -> Result<usize, Refusal> {
    let [number, count, _, _] = report;
    if number == 0 {
        // An entry writes inside what it is lent, so the count is no more than this.
        Ok(usize::try_from(count).map_or(most, |n| n.min(most)))
    } else {
        Err(Refusal::of(report))
    }
}

impl fmt::Display for Refusal {
    fn fmt(&self, f: &mut fmt::Formatter<'_>) -> fmt::Result {
        match self {
            Refusal::TooShort { expected, actual } => {
                write!(
                    f,
                    "{} octets, where at least {} are needed",
                    actual, expected
                )
            }
            Refusal::InvalidVersion(octet) => write!(f, "version {}, not 1", octet),
            Refusal::InvalidMessageClass(octet) => write!(f, "unknown message class {}", octet),
            Refusal::InvalidMessageType { class, msg_type } => {
                write!(f, "unknown message class {} and type {}", class, msg_type)
            }
            Refusal::InvalidParameter { tag, length } => {
                write!(f, "parameter 0x{:04x} has length {}, below 4", tag, length)
            }
            Refusal::ParameterTooShort {
                tag,
                expected,
                actual,
            } => write!(
                f,
                "parameter 0x{:04x} has {} octets of {}",
                tag, actual, expected
            ),
            Refusal::MissingParameter(tag) => write!(f, "parameter 0x{:04x} is absent", tag),
            Refusal::InvalidRoutingIndicator(indicator) => {
                write!(f, "routing indicator {}, above 4", indicator)
            }
            Refusal::InvalidBcdDigit(octet) => {
                write!(f, "character 0x{:02x} is written as no digit", octet)
            }
            Refusal::ValueTooLong { tag, length } => write!(
                f,
                "value of parameter 0x{:04x} has {} octets, above 65,531",
                tag, length
            ),
            Refusal::TooManyDigits(count) => write!(f, "{} digits, above 255", count),
            Refusal::TooManyOctets(length) => write!(f, "{} octets, above 1,048,576", length),
            Refusal::TableTooSmall(count) => write!(f, "the table needs room for {}", count),
            Refusal::OutputTooSmall(length) => write!(f, "the output needs {} octets", length),
            Refusal::OutsideSlice => write!(f, "a record of the list is not finished"),
            Refusal::InvalidTally => write!(f, "the member list or the rows break the rules"),
            Refusal::UnconvertibleAddress => write!(f, "the address has no SCCP address"),
            Refusal::InvalidSccpAddress => {
                write!(f, "the octets are no SCCP address that converts")
            }
        }
    }
}

impl Error for Refusal {}

/// The values of a refusal: none to three numbers, as a slice.
#[derive(Debug, Clone, Copy, PartialEq, Eq, Hash)]
pub struct Values {
    numbers: [u64; 3],
    count: usize,
}

impl Values {
    fn none() -> Values {
        Values {
            numbers: [0; 3],
            count: 0,
        }
    }

    fn one(a: u64) -> Values {
        Values {
            numbers: [a, 0, 0],
            count: 1,
        }
    }

    fn two(a: u64, b: u64) -> Values {
        Values {
            numbers: [a, b, 0],
            count: 2,
        }
    }

    fn three(a: u64, b: u64, c: u64) -> Values {
        Values {
            numbers: [a, b, c],
            count: 3,
        }
    }
}

impl Deref for Values {
    type Target = [u64];

    fn deref(&self) -> &[u64] {
        self.numbers.get(..self.count).unwrap_or_default()
    }
}

#[cfg(test)]
mod tests {
    use super::*;

    const REPORTS: [(Report, usize); 18] = [
        ([1, 8, 7, 0], 2),
        ([2, 255, 0, 0], 1),
        ([3, 255, 0, 0], 1),
        ([4, 255, 254, 0], 2),
        ([5, 65_535, 3, 0], 2),
        ([6, 65_535, 65_534, 1], 3),
        ([7, 65_535, 0, 0], 1),
        ([8, 65_535, 0, 0], 1),
        ([9, 63, 0, 0], 1),
        ([10, 65_535, u64::MAX, 0], 2),
        ([11, u64::MAX, 0, 0], 1),
        ([12, u64::MAX, 0, 0], 1),
        ([13, u64::MAX, 0, 0], 1),
        ([14, u64::MAX, 0, 0], 1),
        ([15, 0, 0, 0], 0),
        ([16, 0, 0, 0], 0),
        ([17, 0, 0, 0], 0),
        ([18, 0, 0, 0], 0),
    ];

    #[test]
    fn numbers_and_values_are_those_reported() {
        for (report, count) in REPORTS {
            let refusal = answer(report, 0).unwrap_err();
            assert_eq!(u64::from(refusal.number()), report[0]);
            assert_eq!(*refusal.values(), report[1..1 + count]);
            assert!(!refusal.to_string().is_empty());
        }
    }

    #[test]
    fn a_count_is_no_more_than_the_room() {
        assert_eq!(answer([0, 7, 0, 0], 8), Ok(7));
        assert_eq!(answer([0, 8, 0, 0], 8), Ok(8));
        assert_eq!(answer([0, u64::MAX, 0, 0], 8), Ok(8));
    }
}
