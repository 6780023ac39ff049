//! SUA (RFC 3868) messages, read, written, settled and tallied by the proved codec of Navrost
//! (libsua.a), and their addresses to and from SCCP. M3UA (RFC 4666) messages are read, written and
//! settled by the module [`m3ua`].
//!
//! The settled form of a message depends on what it means and on nothing else: the copies of one
//! text that two gateways sent have the same form, octet for octet.
//!
//! ```
//! // A CLDT with a source address and the data `Hi`, as two gateways sent it: the copies differ in
//! // the header's reserved octet and length, the address's reserved bits and octets, padding, and a
//! // hop counter.
//! let first = *b"\x01\x00\x07\x01\0\0\0\x28\x01\x01\0\x08\0\0\0\x0f\
//!     \x01\x02\0\x10\0\x02\0\x01\x80\x03\0\x08\0\0\0\x08\x01\x0b\0\x06Hi\xaa\xbb";
//! let second = *b"\x01\xff\x07\x01\0\0\0\x00\
//!     \x01\x02\0\x10\0\x02\0\xf1\x80\x03\0\x08\x09\x09\x09\x08\x01\x0b\0\x06Hi";
//!
//! let form = navrost::settle_vec(&first)?;
//! assert_eq!(form, navrost::settle_vec(&second)?);
//!
//! let reading = navrost::read_vec(&second)?;
//! let account = reading.account();
//! assert_eq!((account.message_class(), account.message_type()), (7, 1));
//! for parameter in account.parameters() {
//!     match parameter.address {
//!         Some(address) => assert_eq!(address.ssn, Some(8)),
//!         None => assert_eq!((parameter.tag, parameter.value), (0x010b, &b"Hi"[..])),
//!     }
//! }
//!
//! let refusal = navrost::settle_vec(&first[..7]).unwrap_err();
//! assert_eq!((refusal.number(), &*refusal.values()), (1, &[8, 7][..]));
//! # Ok::<(), navrost::Refusal>(())
//! ```
//!
//! No call panics, whatever octets it is given. A call that refuses has written nothing, and none
//! writes past the octets that it answers.
//!
//! # Building
//!
//! The build takes libsua.a from the folder that the environment's `SUA_LIB` names, by its whole
//! path. Without it the library is that of the repository, and `bin/library` builds it first. At
//! its first use this proves the codec, which takes some minutes; `cargo build -vv` shows how far
//! it is.

#![deny(missing_docs)]
#![deny(unsafe_op_in_unsafe_fn)]
#![deny(unsafe_code)]

mod account;
mod address;
#[allow(unsafe_code)]
mod entries;
mod family;
pub mod m3ua;
mod refusal;
mod sccp;
mod tally;

pub use account::{Account, Parameters, Reading};
pub use address::{
    Address, GlobalTitle, Other, Others, Parameter, DESTINATION_ADDRESS, SOURCE_ADDRESS,
};
pub use refusal::{Refusal, Values};
pub use sccp::{from_sccp, to_sccp};
pub use tally::{tally, Members, Row, Tally};

use account::Sua;

/// Writes the settled form of a message, and answers its length.
///
/// The form has the message's parameters in wire order, each address read and written again. It has
/// no SS7 hop counter (0x0101), since that falls at each title translation; [`read`] hands it out.
///
/// Refusals in order: 12, 1, 2, 4, 5 or 6 in wire order; then for each address in wire order 1, 8,
/// 5 or 6 of its walk, each sub-parameter's 1 or 6, 9, 10; then 14.
///
/// ```
/// let mut out = [0; 8];
/// assert_eq!(navrost::settle(&[1, 0xff, 3, 1, 0, 0, 0, 0], &mut out), Ok(8));
/// assert_eq!(out, [1, 0, 3, 1, 0, 0, 0, 8]);
/// ```
pub fn settle(input: &[u8], out: &mut [u8]) -> Result<usize, Refusal> {
    family::settle::<Sua>(input, out)
}

/// The length of a message's settled form. The refusals of [`settle`], 14 apart.
pub fn settled_length(input: &[u8]) -> Result<usize, Refusal> {
    family::settled_length::<Sua>(input)
}

/// The settled form of a message. The refusals of [`settle`], 14 apart.
pub fn settle_vec(input: &[u8]) -> Result<Vec<u8>, Refusal> {
    family::settle_vec::<Sua>(input)
}

/// Reads a message with its addresses, and writes an account of it that is then read from there.
///
/// An account has at most 5 octets for each 2 of the message.
///
/// Refusals in order: 12, 1, 2, 4, 5 or 6 in wire order; then for each address in wire order 1, 8,
/// 5 or 6 of its walk, each sub-parameter's 1 or 6; then 14, with the length that `account` needs.
///
/// ```
/// let mut room = [0; 100];
/// let account = navrost::read(&[1, 0, 3, 1, 0, 0, 0, 8, 0, 4, 0, 5, 65], &mut room)?;
/// assert_eq!(account.len(), 1);
/// let info = account.parameters().next().unwrap();
/// assert_eq!((info.tag, info.value), (4, &b"A"[..]));
/// # Ok::<(), navrost::Refusal>(())
/// ```
pub fn read<'a>(input: &'a [u8], account: &'a mut [u8]) -> Result<Account<'a>, Refusal> {
    family::read(input, account)
}

/// Reads a message with its addresses. The refusals of [`read`], 14 apart.
pub fn read_vec(input: &[u8]) -> Result<Reading<'_>, Refusal> {
    family::read_vec(input)
}

/// Writes the message of a class, a type and a list of parameters, and answers its length.
///
/// The list has for each parameter its tag (2 octets), the length of its value (4 octets) and the
/// value, numbers with their high octet first: [`push_parameter`] adds one.
///
/// Refusals in order: 4, 15, 10 in order, 12, 14.
pub fn encode(class: u8, msg_type: u8, list: &[u8], out: &mut [u8]) -> Result<usize, Refusal> {
    family::encode::<Sua>(class, msg_type, list, out)
}

/// Adds a parameter to a list for [`encode`] or [`m3ua::encode`].
///
/// Refuses, as 10, a value of more octets than the list can tell, which are 4,294,967,295, and then
/// leaves the list as it was. Any other value above 65,531 octets is refused by `encode`.
///
/// ```
/// let mut list = Vec::new();
/// navrost::push_parameter(&mut list, 4, b"A")?;
/// let mut out = [0; 16];
/// assert_eq!(navrost::encode(3, 1, &list, &mut out), Ok(16));
/// assert_eq!(out, [1, 0, 3, 1, 0, 0, 0, 16, 0, 4, 0, 5, 65, 0, 0, 0]);
/// # Ok::<(), navrost::Refusal>(())
/// ```
pub fn push_parameter(list: &mut Vec<u8>, tag: u16, value: &[u8]) -> Result<(), Refusal> {
    let length = u32::try_from(value.len()).map_err(|_| Refusal::ValueTooLong {
        tag,
        length: value.len() as u64,
    })?;
    list.extend_from_slice(&tag.to_be_bytes());
    list.extend_from_slice(&length.to_be_bytes());
    list.extend_from_slice(value);
    Ok(())
}

/// The message of a class, a type and parameters, each a tag and a value.
///
/// Refusals in order: 4, 10 in order, 12.
///
/// ```
/// let message = navrost::encode_vec(3, 1, &[(4, b"A")])?;
/// assert_eq!(message, [1, 0, 3, 1, 0, 0, 0, 16, 0, 4, 0, 5, 65, 0, 0, 0]);
/// # Ok::<(), navrost::Refusal>(())
/// ```
pub fn encode_vec(
    class: u8,
    msg_type: u8,
    parameters: &[(u16, &[u8])],
) -> Result<Vec<u8>, Refusal> {
    family::encode_vec::<Sua>(class, msg_type, parameters)
}
