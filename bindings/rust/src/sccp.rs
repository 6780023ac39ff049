//! Addresses to and from SCCP.

use crate::entries;
use crate::refusal::{answer, Refusal};

/// Writes the SCCP party address (ITU-T Q.713, 3.4) of an address value, and answers its length.
///
/// An address value is the value of a parameter [`SOURCE_ADDRESS`](crate::SOURCE_ADDRESS) or
/// [`DESTINATION_ADDRESS`](crate::DESTINATION_ADDRESS). The length octet that stands before a party
/// address in an SCCP message is no part of it. A party address has at most 135 octets.
///
/// The value is read as [`read`](crate::read) reads an address. Refused as 17 unless all of these
/// hold:
///
/// - the routing indicator is 1 (on title) or 2 (on SSN and point code);
/// - each include bit is set exactly where its part, title, point code or SSN, is there;
/// - there are no other sub-parameters;
/// - a title has indicator 4, a numbering plan up to 15, a nature of address up to 127 and no digit
///   `?`;
/// - a point code is at most 16,383.
///
/// Refusals in order: 12, 1, 8, 5 or 6 of the walk, each sub-parameter's 1 or 6; then 17; then 14,
/// with the length that `out` needs. [`from_sccp`] takes what is written, and gives an address
/// value with the same meaning.
///
/// ```
/// // Routed on title: an international number of the telephone plan, 12025550142, and SSN 8.
/// let value = *b"\0\x01\0\x05\x80\x01\0\x12\0\0\0\x04\x0b\0\x01\x04\x21\x20\x55\x05\x41\x02\0\0\
///     \x80\x03\0\x08\0\0\0\x08";
/// let mut out = [0; 135];
/// assert_eq!(navrost::to_sccp(&value, &mut out), Ok(11));
/// // 12: SSN there, title indicator 4. Then the SSN; translation type 0, numbering plan 1 with an
/// // odd number of digits, nature 4; and the digits.
/// assert_eq!(out[..11], *b"\x12\x08\0\x11\x04\x21\x20\x55\x05\x41\x02");
/// ```
pub fn to_sccp(value: &[u8], out: &mut [u8]) -> Result<usize, Refusal> {
    answer(entries::to_sccp(value, out), out.len())
}

/// Writes the address value of an SCCP party address, and answers its length.
///
/// The value has title, point code and SSN, each if it is there, with their include bits set, and
/// at most 160 octets.
///
/// Refused as 18 are octets that
///
/// - end early, or go on behind the last part;
/// - have a reserved bit set: the high bit of the first octet, the high bit of the nature of
///   address, or the two high bits of the point code;
/// - have a title indicator other than 0 and 4, or an encoding scheme other than 1 (BCD odd) and 2
///   (BCD even);
/// - have no digits with scheme 1, over 255 digits, a filler half other than 0, or a half octet 15.
///
/// Refusals in order: 12; 18; 14, with the length that `out` needs. [`to_sccp`] takes what is
/// written, and gives the same octets.
///
/// ```
/// // Routed on SSN: point code 1,000 (0x03e8, its low octet first) and SSN 6.
/// let mut out = [0; 160];
/// assert_eq!(navrost::from_sccp(b"\x43\xe8\x03\x06", &mut out), Ok(20));
/// assert_eq!(out[..20], *b"\0\x02\0\x03\x80\x02\0\x08\0\0\x03\xe8\x80\x03\0\x08\0\0\0\x06");
///
/// let refusal = navrost::from_sccp(b"\x43\xe8\x03", &mut out).unwrap_err();
/// assert_eq!(refusal, navrost::Refusal::InvalidSccpAddress);
/// ```
pub fn from_sccp(octets: &[u8], out: &mut [u8]) -> Result<usize, Refusal> {
    answer(entries::from_sccp(octets, out), out.len())
}
