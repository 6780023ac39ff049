//! M3UA (RFC 4666) messages, read, written and settled.
//!
//! Header and parameters are laid out as SUA's; classes and types are RFC 4666's. No parameter is
//! dropped or rewritten: the settled form of a message depends on its type and, in wire order, on
//! each tag with its value, and on nothing else.
//!
//! ```
//! use navrost::m3ua;
//!
//! // A DATA from point code 1 to 2 with the payload `Hi`, as two gateways sent it: the copies
//! // differ in the header's reserved octet and length, in the padding, and in octets at the end.
//! let first = *b"\x01\0\x01\x01\0\0\0\x1a\
//!     \x02\x10\0\x12\0\0\0\x01\0\0\0\x02\x03\x02\0\x05Hi";
//! let second = *b"\x01\xff\x01\x01\0\0\0\0\
//!     \x02\x10\0\x12\0\0\0\x01\0\0\0\x02\x03\x02\0\x05Hi\xaa\xbb\xff";
//!
//! let form = m3ua::settle_vec(&first)?;
//! assert_eq!(form, m3ua::settle_vec(&second)?);
//!
//! let reading = m3ua::read_vec(&second)?;
//! let parameter = reading.account().parameters().next().unwrap();
//! assert_eq!(parameter.tag, m3ua::PROTOCOL_DATA);
//! let data = parameter.protocol_data.unwrap();
//! assert_eq!((data.originating, data.destination), (1, 2));
//! assert_eq!((data.service_indicator, data.network_indicator), (3, 2));
//! assert_eq!((data.priority, data.selection, data.payload), (0, 5, &b"Hi"[..]));
//!
//! // A CLDT is SUA's.
//! let refusal = m3ua::settle_vec(&[1, 0, 7, 1, 0, 0, 0, 8]).unwrap_err();
//! assert_eq!((refusal.number(), &*refusal.values()), (4, &[7, 1][..]));
//! # Ok::<(), navrost::Refusal>(())
//! ```

use crate::account::{self, Family, M3ua, Rest};
use crate::family;
use crate::Refusal;

/// The tag of a Protocol Data parameter (RFC 4666, 3.3.1).
pub const PROTOCOL_DATA: u16 = 0x0210;

/// A message as it was read: its class and type, and its parameters in wire order.
pub type Account<'a> = account::Account<'a, M3ua>;

/// A message with the account of it, which it owns.
pub type Reading<'a> = account::Reading<'a, M3ua>;

/// The parameters of a message, in wire order.
pub type Parameters<'a> = account::Parameters<'a, M3ua>;

/// A parameter of a message.
#[derive(Debug, Clone, Copy, PartialEq, Eq, Hash)]
pub struct Parameter<'a> {
    /// Its tag.
    pub tag: u16,
    /// Its value, as it stands in the message.
    pub value: &'a [u8],
    /// The value's parts: of a Protocol Data, and of no other parameter.
    pub protocol_data: Option<ProtocolData<'a>>,
}

/// The parts of a Protocol Data.
#[derive(Debug, Clone, Copy, PartialEq, Eq, Hash)]
pub struct ProtocolData<'a> {
    /// The originating point code.
    pub originating: u32,
    /// The destination point code.
    pub destination: u32,
    /// The service indicator.
    pub service_indicator: u8,
    /// The network indicator.
    pub network_indicator: u8,
    /// The message priority.
    pub priority: u8,
    /// The signalling link selection.
    pub selection: u8,
    /// The user's data, as it stands in the message.
    pub payload: &'a [u8],
}

/// Writes the settled form of a message, and answers its length.
///
/// The form has the message's parameters in wire order, each with its tag and its value, and is
/// never longer than the message, rounded up to a multiple of 4.
///
/// Refusals in order: 12, 1, 2, 4, 5 or 6 in wire order; then 6 for each Protocol Data under twelve
/// octets in wire order; then 14.
///
/// ```
/// let mut out = [0; 8];
/// assert_eq!(navrost::m3ua::settle(&[1, 0xff, 3, 1, 0, 0, 0, 0], &mut out), Ok(8));
/// assert_eq!(out, [1, 0, 3, 1, 0, 0, 0, 8]);
/// ```
pub fn settle(input: &[u8], out: &mut [u8]) -> Result<usize, Refusal> {
    family::settle::<M3ua>(input, out)
}

/// The length of a message's settled form. The refusals of [`settle`], 14 apart.
pub fn settled_length(input: &[u8]) -> Result<usize, Refusal> {
    family::settled_length::<M3ua>(input)
}

/// The settled form of a message. The refusals of [`settle`], 14 apart.
pub fn settle_vec(input: &[u8]) -> Result<Vec<u8>, Refusal> {
    family::settle_vec::<M3ua>(input)
}

/// Reads a message with its Protocol Data, and writes an account of it that is then read from
/// there.
///
/// An account has at most 5 octets for each 2 of the message.
///
/// Refusals in order: those of [`settle`], 14 with the length that `account` needs.
///
/// ```
/// let mut room = [0; 100];
/// let account = navrost::m3ua::read(&[1, 0, 3, 1, 0, 0, 0, 8, 0, 4, 0, 5, 65], &mut room)?;
/// assert_eq!(account.len(), 1);
/// let info = account.parameters().next().unwrap();
/// assert_eq!((info.tag, info.value), (4, &b"A"[..]));
/// # Ok::<(), navrost::Refusal>(())
/// ```
pub fn read<'a>(input: &'a [u8], account: &'a mut [u8]) -> Result<Account<'a>, Refusal> {
    family::read(input, account)
}

/// Reads a message with its Protocol Data. The refusals of [`read`], 14 apart.
pub fn read_vec(input: &[u8]) -> Result<Reading<'_>, Refusal> {
    family::read_vec(input)
}

/// Writes the message of a class, a type and a list of parameters, and answers its length.
///
/// The list is as for [`encode`](crate::encode) of SUA: [`push_parameter`](crate::push_parameter)
/// adds one. Values are written as they are, also those of Protocol Data.
///
/// Refusals in order: 4, 15, 10 in order, 12, 14.
pub fn encode(class: u8, msg_type: u8, list: &[u8], out: &mut [u8]) -> Result<usize, Refusal> {
    family::encode::<M3ua>(class, msg_type, list, out)
}

/// The message of a class, a type and parameters, each a tag and a value.
///
/// Refusals in order: 4, 10 in order, 12.
///
/// ```
/// let message = navrost::m3ua::encode_vec(3, 1, &[(4, b"A")])?;
/// assert_eq!(message, [1, 0, 3, 1, 0, 0, 0, 16, 0, 4, 0, 5, 65, 0, 0, 0]);
/// # Ok::<(), navrost::Refusal>(())
/// ```
pub fn encode_vec(
    class: u8,
    msg_type: u8,
    parameters: &[(u16, &[u8])],
) -> Result<Vec<u8>, Refusal> {
    family::encode_vec::<M3ua>(class, msg_type, parameters)
}

impl<'a> Family<'a> for M3ua {
    type Parameter = Parameter<'a>;

    fn parameter(behind: &mut Rest<'a>, input: &'a [u8]) -> Option<Parameter<'a>> {
        let (tag, value) = behind.place(input)?;
        let protocol_data = match tag {
            PROTOCOL_DATA => Some(behind.protocol_data(input)?),
            _ => None,
        };
        Some(Parameter {
            tag,
            value,
            protocol_data,
        })
    }
}

impl<'a> Rest<'a> {
    fn protocol_data(&mut self, input: &'a [u8]) -> Option<ProtocolData<'a>> {
        Some(ProtocolData {
            originating: self.four()?,
            destination: self.four()?,
            service_indicator: self.one()?,
            network_indicator: self.one()?,
            priority: self.one()?,
            selection: self.one()?,
            payload: self.part(input)?,
        })
    }
}

#[cfg(test)]
mod tests {
    use super::*;

    /// A message of 20 octets, and an account of it with a Protocol Data.
    const INPUT: [u8; 20] = [7; 20];
    const OCTETS: &[u8] = &[
        1, 1, 0, 0, 0, 2, // class, type, two parameters
        2, 16, 0, 0, 0, 0, 0, 0, 0, 20, // Protocol Data
        1, 2, 3, 4, 5, 6, 7, 8, 9, 10, 11, 12, // its fields
        0, 0, 0, 17, 0, 0, 0, 3, // payload
        0, 4, 0, 0, 0, 20, 0, 0, 0, 0, // info string
    ];

    fn drained(octets: &[u8]) -> usize {
        let account: Account<'_> = Account::of(&INPUT, octets);
        let data = account.parameters().flat_map(|p| p.protocol_data);
        account.parameters().count() + data.map(|d| d.payload.len()).sum::<usize>()
    }

    #[test]
    fn every_field_is_read() {
        let account: Account<'_> = Account::of(&INPUT, OCTETS);
        assert_eq!((account.message_class(), account.message_type()), (1, 1));
        let all: Vec<_> = account.parameters().collect();
        let data = ProtocolData {
            originating: 0x01020304,
            destination: 0x05060708,
            service_indicator: 9,
            network_indicator: 10,
            priority: 11,
            selection: 12,
            payload: &INPUT[17..],
        };
        assert_eq!(all[0].protocol_data, Some(data));
        assert_eq!(all[0].value, INPUT);
        assert_eq!((all[1].tag, all[1].value.len()), (4, 0));
        assert_eq!(drained(OCTETS), 5);
    }

    /// The library hands out no such accounts.
    #[test]
    fn an_account_cut_short_or_spoilt_ends_without_a_panic() {
        for n in 0..OCTETS.len() {
            assert!(drained(&OCTETS[..n]) < 5);
        }
        for i in 0..OCTETS.len() {
            for octet in [0, 1, 2, 127, 128, 255] {
                let mut spoilt = OCTETS.to_vec();
                spoilt[i] = octet;
                drained(&spoilt);
            }
        }
    }
}
