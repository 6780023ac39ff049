//! The parameters of SUA and the addresses in them, as an account has them.

use std::fmt;

use crate::account::{Family, Rest, Sua};

/// The tag of a Source Address parameter.
pub const SOURCE_ADDRESS: u16 = 0x0102;

/// The tag of a Destination Address parameter.
pub const DESTINATION_ADDRESS: u16 = 0x0103;

/// A parameter of a message.
#[derive(Debug, Clone, PartialEq, Eq)]
pub struct Parameter<'a> {
    /// Its tag.
    pub tag: u16,
    /// Its value, as it stands in the message.
    pub value: &'a [u8],
    /// The value read as an address: of a Source or Destination Address, and of no other parameter.
    pub address: Option<Address<'a>>,
}

/// An address. The include bits do not depend on which parts are present.
#[derive(Debug, Clone, PartialEq, Eq)]
pub struct Address<'a> {
    /// The routing indicator, 0 to 4.
    pub routing_indicator: u16,
    /// Whether the address indicator includes the global title.
    pub include_gt: bool,
    /// Whether the address indicator includes the point code.
    pub include_pc: bool,
    /// Whether the address indicator includes the SSN.
    pub include_ssn: bool,
    /// The last global title.
    pub global_title: Option<GlobalTitle<'a>>,
    /// The last point code.
    pub point_code: Option<u32>,
    /// The last subsystem number.
    pub ssn: Option<u8>,
    /// The sub-parameters with other tags, in order.
    pub others: Others<'a>,
}

/// A global title.
#[derive(Debug, Clone, Copy, PartialEq, Eq, Hash)]
pub struct GlobalTitle<'a> {
    /// The global title indicator.
    pub gti: u8,
    /// The translation type.
    pub translation_type: u8,
    /// The numbering plan.
    pub numbering_plan: u8,
    /// The nature of address.
    pub nature_of_address: u8,
    /// The digits: `0` to `9`, `*`, `#`, `a` to `c`, and `?` for a half octet that is no digit.
    pub digits: &'a str,
}

/// A sub-parameter of an address that is no global title, point code or SSN.
#[derive(Debug, Clone, Copy, PartialEq, Eq, Hash)]
pub struct Other<'a> {
    /// Its tag.
    pub tag: u16,
    /// Its value, as it stands in the message.
    pub value: &'a [u8],
}

/// The octets that a tag, a start and a length take in an account.
const PLACE: usize = 10;

/// The sub-parameters of an address with other tags, in order. Two are equal where they hand out
/// the same.
#[derive(Clone)]
pub struct Others<'a> {
    input: &'a [u8],
    places: Rest<'a>,
}

impl<'a> Iterator for Others<'a> {
    type Item = Other<'a>;

    fn next(&mut self) -> Option<Other<'a>> {
        let (tag, value) = self.places.place(self.input)?;
        Some(Other { tag, value })
    }

    fn size_hint(&self) -> (usize, Option<usize>) {
        let left = self.places.0.len() / PLACE;
        (left, Some(left))
    }
}

impl ExactSizeIterator for Others<'_> {}

impl PartialEq for Others<'_> {
    fn eq(&self, other: &Self) -> bool {
        Iterator::eq(self.clone(), other.clone())
    }
}

impl Eq for Others<'_> {}

impl fmt::Debug for Others<'_> {
    fn fmt(&self, f: &mut fmt::Formatter<'_>) -> fmt::Result {
        f.debug_list().entries(self.clone()).finish()
    }
}

impl<'a> Family<'a> for Sua {
    type Parameter = Parameter<'a>;

    fn parameter(behind: &mut Rest<'a>, input: &'a [u8]) -> Option<Parameter<'a>> {
        let (tag, value) = behind.place(input)?;
        let address = match tag {
            SOURCE_ADDRESS | DESTINATION_ADDRESS => Some(behind.address(input)?),
            _ => None,
        };
        Some(Parameter {
            tag,
            value,
            address,
        })
    }
}

impl<'a> Rest<'a> {
    fn address(&mut self, input: &'a [u8]) -> Option<Address<'a>> {
        let routing_indicator = self.two()?;
        let include = self.one()?;
        let global_title = self.marked(Rest::title)?;
        let point_code = self.marked(Rest::four)?;
        let ssn = self.marked(Rest::one)?;
        let others = self.four()? as usize;
        Some(Address {
            routing_indicator,
            include_gt: include & 4 != 0,
            include_pc: include & 2 != 0,
            include_ssn: include & 1 != 0,
            global_title,
            point_code,
            ssn,
            others: Others {
                input,
                places: Rest(self.octets(others.checked_mul(PLACE)?)?),
            },
        })
    }

    fn title(&mut self) -> Option<GlobalTitle<'a>> {
        let gti = self.one()?;
        let translation_type = self.one()?;
        let numbering_plan = self.one()?;
        let nature_of_address = self.one()?;
        let count = self.one()?;
        Some(GlobalTitle {
            gti,
            translation_type,
            numbering_plan,
            nature_of_address,
            digits: std::str::from_utf8(self.octets(count.into())?).ok()?,
        })
    }

    /// 0 and nothing, or another octet and the part that `read` reads.
    fn marked<T>(&mut self, read: fn(&mut Self) -> Option<T>) -> Option<Option<T>> {
        match self.one()? {
            0 => Some(None),
            _ => Some(Some(read(self)?)),
        }
    }
}

#[cfg(test)]
mod tests {
    use crate::Account;

    /// A message of 20 octets, and an account of it with an address that has every part.
    const INPUT: [u8; 20] = [7; 20];
    const OCTETS: &[u8] = &[
        7, 1, 0, 0, 0, 2, // class, type, two parameters
        1, 2, 0, 0, 0, 0, 0, 0, 0, 20, // source address
        0, 1, 5, 1, 4, 0, 1, 4, 3, b'1', b'2', b'3', // indicators and title
        1, 0, 1, 2, 3, 1, 8, // point code and SSN
        0, 0, 0, 1, 128, 4, 0, 0, 0, 16, 0, 0, 0, 4, // one other
        1, 11, 0, 0, 0, 20, 0, 0, 0, 0, // data
    ];

    fn drained(octets: &[u8]) -> usize {
        let account: Account<'_> = Account::of(&INPUT, octets);
        let others = account.parameters().flat_map(|p| p.address);
        account.parameters().count() + others.map(|a| a.others.count()).sum::<usize>()
    }

    #[test]
    fn every_field_is_read() {
        let account: Account<'_> = Account::of(&INPUT, OCTETS);
        assert_eq!((account.message_class(), account.message_type()), (7, 1));
        let all: Vec<_> = account.parameters().collect();
        let address = all[0].address.clone().unwrap();
        assert_eq!(address.routing_indicator, 1);
        assert!(address.include_gt && !address.include_pc && address.include_ssn);
        assert_eq!(address.global_title.unwrap().digits, "123");
        assert_eq!((address.point_code, address.ssn), (Some(0x010203), Some(8)));
        assert_eq!(address.others.len(), 1);
        assert_eq!(all[1].value.len(), 0);
        assert_eq!(drained(OCTETS), 3);
    }

    /// The library hands out no such accounts.
    #[test]
    fn an_account_cut_short_or_spoilt_ends_without_a_panic() {
        for n in 0..OCTETS.len() {
            assert!(drained(&OCTETS[..n]) < 3);
        }
        for i in 0..OCTETS.len() {
            for octet in [0, 1, 2, 127, 128, 255] {
                let mut spoilt = OCTETS.to_vec();
                spoilt[i] = octet;
                drained(&spoilt);
            }
        }
    }
}
