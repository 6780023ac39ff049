//! The day tally by member.

use crate::entries;
use crate::refusal::{answer, Refusal};

/// A member list as [`tally()`] takes it, whether or not it keeps the rules.
#[derive(Debug, Clone, Copy, PartialEq, Eq)]
pub struct Members<'a> {
    /// The members' prefixes, as characters, one after the other.
    pub digits: &'a [u8],
    /// The length of each prefix.
    pub lengths: &'a [u8],
}

/// Tallies one message of a day by member, and answers the row that gained, from 0.
///
/// The rows stand as the members do, then unplaced, then refused; `messages` and `octets` have one
/// place for each, and are all 0 where a day starts. A message that [`settle`](crate::settle)
/// refuses, 14 apart, adds itself and no octets to the refused row. Every other adds itself and the
/// octets of its first Data parameter, 0 if it has none: a CLDT whose first destination address has
/// a title to the member with the longest prefix that the title's digits begin with, any other, or
/// where no prefix fits, to the unplaced row.
///
/// Refused as 16, before the message is read and with every row as it was, unless all of these hold:
///
/// - there are 1 to 64 lengths, each 1 to 15, that add up to the characters; each character is 0 to
///   9; no prefix stands twice;
/// - `messages` and `octets` each have two places more than there are members;
/// - all rows together have under 4,294,967,295 messages;
/// - each row has at most 65,531 octets for each of its messages.
///
/// The rows of a day are the sums of the rows of its parts. [`Tally`] keeps list and rows together.
///
/// ```
/// let members = navrost::Members { digits: b"444917", lengths: &[2, 4] };
/// let (mut messages, mut octets) = ([0; 4], [0; 4]);
/// // A heartbeat goes to the unplaced row, and octets that are no message to the refused one.
/// let heartbeat = [1, 0, 3, 3, 0, 0, 0, 8];
/// assert_eq!(navrost::tally(members, &heartbeat, &mut messages, &mut octets), Ok(2));
/// assert_eq!(navrost::tally(members, b"hello", &mut messages, &mut octets), Ok(3));
/// assert_eq!((messages, octets), ([0, 0, 1, 1], [0; 4]));
/// ```
pub fn tally(
    members: Members<'_>,
    input: &[u8],
    messages: &mut [u64],
    octets: &mut [u64],
) -> Result<usize, Refusal> {
    let report = entries::tally(members.digits, members.lengths, input, messages, octets);
    answer(report, messages.len().saturating_sub(1))
}

/// A row of a [`Tally`].
#[derive(Debug, Clone, Copy, Default, PartialEq, Eq, Hash)]
pub struct Row {
    /// The messages that it gained.
    pub messages: u64,
    /// The octets of their first Data parameters.
    pub octets: u64,
}

/// A day: a member list that keeps the rules of [`tally()`], and its rows.
///
/// ```
/// let mut day = navrost::Tally::new(&["44", "4917"])?;
/// // A CLDT to 49170 with the data `Hi`.
/// let message = *b"\x01\x00\x07\x01\0\0\0\x28\x01\x03\0\x18\0\x01\0\x04\
///     \x80\x01\0\x0f\0\0\0\x04\x05\0\x01\x04\x94\x71\0\0\x01\x0b\0\x06Hi\0\0";
/// assert_eq!(day.add(&message), Ok(1));
/// assert_eq!(day.add(&message[..20]), Ok(3));
/// let rows: Vec<_> = day.rows().map(|row| (row.messages, row.octets)).collect();
/// assert_eq!(rows, [(0, 0), (1, 2), (0, 0), (1, 0)]);
/// assert_eq!(day.refused().messages, 1);
/// # Ok::<(), navrost::Refusal>(())
/// ```
#[derive(Debug, Clone, PartialEq, Eq)]
pub struct Tally {
    digits: Vec<u8>,
    lengths: Vec<u8>,
    messages: Vec<u64>,
    octets: Vec<u64>,
}

impl Tally {
    /// A day under members with these prefixes, with rows of 0. Refuses, as 16, what is no member
    /// list: 1 to 64 distinct prefixes, each of 1 to 15 decimal digits.
    pub fn new<P: AsRef<[u8]>>(prefixes: &[P]) -> Result<Tally, Refusal> {
        let mut digits = Vec::new();
        let mut lengths = Vec::new();
        for prefix in prefixes {
            let prefix = prefix.as_ref();
            // A length above 255 cannot be told; it is refused like any above 15.
            lengths.push(u8::try_from(prefix.len()).map_err(|_| Refusal::InvalidTally)?);
            digits.extend_from_slice(prefix);
        }
        let rows = lengths.len().saturating_add(2);
        let day = Tally {
            digits,
            lengths,
            messages: vec![0; rows],
            octets: vec![0; rows],
        };
        // A copy is given a message, which is refused where the list breaks the rules.
        day.clone().add(&[])?;
        Ok(day)
    }

    /// Tallies one message, and answers the row that gained, from 0. Refuses, as 16, the message
    /// after the first 4,294,967,295.
    pub fn add(&mut self, input: &[u8]) -> Result<usize, Refusal> {
        let members = Members {
            digits: &self.digits,
            lengths: &self.lengths,
        };
        tally(members, input, &mut self.messages, &mut self.octets)
    }

    /// The rows: as the members stand, then unplaced, then refused.
    pub fn rows(&self) -> impl ExactSizeIterator<Item = Row> + '_ {
        let pairs = self.messages.iter().zip(&self.octets);
        pairs.map(|(&messages, &octets)| Row { messages, octets })
    }

    /// The row of the messages that have a form and no member.
    pub fn unplaced(&self) -> Row {
        self.rows().nth(self.lengths.len()).unwrap_or_default()
    }

    /// The row of the messages that have no form.
    pub fn refused(&self) -> Row {
        self.rows().last().unwrap_or_default()
    }
}
