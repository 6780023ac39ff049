//! The account of a message of either family, read as parameters. No octets are copied: what is
//! handed out lies in the message and in the account.

use std::fmt;
use std::marker::PhantomData;

/// A family of messages, as the accounts of its messages are read.
pub trait Family<'a>: Copy {
    /// A parameter of the family.
    type Parameter: fmt::Debug;

    /// The parameter that stands next in the account of the message `input`.
    fn parameter(behind: &mut Rest<'a>, input: &'a [u8]) -> Option<Self::Parameter>;
}

/// The family of SUA (RFC 3868).
#[derive(Debug, Clone, Copy)]
pub struct Sua;

/// The family of M3UA (RFC 4666).
#[derive(Debug, Clone, Copy)]
pub struct M3ua;

/// A message as it was read: its class and type, and its parameters in wire order.
///
/// `F` is the family of messages, SUA where none is named; [`m3ua::Account`](crate::m3ua::Account)
/// is that of M3UA.
#[derive(Clone, Copy)]
pub struct Account<'a, F = Sua> {
    input: &'a [u8],
    class: u8,
    msg_type: u8,
    count: u32,
    behind: Rest<'a>,
    family: PhantomData<F>,
}

impl<'a, F> Account<'a, F> {
    /// The account in these octets, of the message `input`.
    pub(crate) fn of(input: &'a [u8], octets: &'a [u8]) -> Account<'a, F> {
        let mut behind = Rest(octets);
        Account {
            input,
            class: behind.one().unwrap_or_default(),
            msg_type: behind.one().unwrap_or_default(),
            count: behind.four().unwrap_or_default(),
            behind,
            family: PhantomData,
        }
    }

    /// The message class.
    pub fn message_class(&self) -> u8 {
        self.class
    }

    /// The message type in its class.
    pub fn message_type(&self) -> u8 {
        self.msg_type
    }

    /// The number of parameters.
    pub fn len(&self) -> usize {
        self.count as usize
    }

    /// Whether the message has no parameters.
    pub fn is_empty(&self) -> bool {
        self.count == 0
    }

    /// The parameters in wire order.
    pub fn parameters(&self) -> Parameters<'a, F> {
        Parameters {
            input: self.input,
            behind: self.behind,
            left: self.len(),
            family: PhantomData,
        }
    }
}

impl<'a, F: Family<'a>> fmt::Debug for Account<'a, F> {
    fn fmt(&self, f: &mut fmt::Formatter<'_>) -> fmt::Result {
        f.debug_struct("Account")
            .field("message_class", &self.class)
            .field("message_type", &self.msg_type)
            .field("parameters", &self.parameters())
            .finish()
    }
}

/// A message with the account of it, which it owns. `F` is its family, as in [`Account`].
#[derive(Clone)]
pub struct Reading<'a, F = Sua> {
    input: &'a [u8],
    octets: Vec<u8>,
    family: PhantomData<F>,
}

impl<'a, F> Reading<'a, F> {
    /// The reading of `input` whose account is in these octets.
    pub(crate) fn of(input: &'a [u8], octets: Vec<u8>) -> Reading<'a, F> {
        Reading {
            input,
            octets,
            family: PhantomData,
        }
    }

    /// What was read.
    pub fn account(&self) -> Account<'_, F> {
        Account::of(self.input, &self.octets)
    }
}

impl<F: for<'b> Family<'b>> fmt::Debug for Reading<'_, F> {
    fn fmt(&self, f: &mut fmt::Formatter<'_>) -> fmt::Result {
        f.debug_tuple("Reading").field(&self.account()).finish()
    }
}

/// The parameters of a message, in wire order. `F` is its family, as in [`Account`].
#[derive(Clone)]
pub struct Parameters<'a, F = Sua> {
    input: &'a [u8],
    behind: Rest<'a>,
    left: usize,
    family: PhantomData<F>,
}

impl<'a, F: Family<'a>> Iterator for Parameters<'a, F> {
    type Item = F::Parameter;

    fn next(&mut self) -> Option<F::Parameter> {
        let left = self.left.checked_sub(1)?;
        let read = F::parameter(&mut self.behind, self.input);
        // As many parameters as the account tells are in it; if one were not, this is the end.
        self.left = if read.is_some() { left } else { 0 };
        read
    }

    fn size_hint(&self) -> (usize, Option<usize>) {
        (self.left, Some(self.left))
    }
}

impl<'a, F: Family<'a>> ExactSizeIterator for Parameters<'a, F> {}

impl<'a, F: Family<'a>> std::iter::FusedIterator for Parameters<'a, F> {}

impl<'a, F: Family<'a>> fmt::Debug for Parameters<'a, F> {
    fn fmt(&self, f: &mut fmt::Formatter<'_>) -> fmt::Result {
        f.debug_list().entries(self.clone()).finish()
    }
}

/// The octets of an account that are not read yet. Each function reads one item, or answers `None`
/// where the octets do not hold it.
#[derive(Clone, Copy)]
pub struct Rest<'a>(pub(crate) &'a [u8]);

impl<'a> Rest<'a> {
    pub(crate) fn octets(&mut self, n: usize) -> Option<&'a [u8]> {
        let taken = self.0.get(..n)?;
        self.0 = self.0.get(n..)?;
        Some(taken)
    }

    pub(crate) fn one(&mut self) -> Option<u8> {
        let octets: [u8; 1] = self.octets(1)?.try_into().ok()?;
        Some(u8::from_be_bytes(octets))
    }

    pub(crate) fn two(&mut self) -> Option<u16> {
        let octets: [u8; 2] = self.octets(2)?.try_into().ok()?;
        Some(u16::from_be_bytes(octets))
    }

    pub(crate) fn four(&mut self) -> Option<u32> {
        let octets: [u8; 4] = self.octets(4)?.try_into().ok()?;
        Some(u32::from_be_bytes(octets))
    }

    /// The octets of `input` whose start and length stand next.
    pub(crate) fn part(&mut self, input: &'a [u8]) -> Option<&'a [u8]> {
        let start = self.four()? as usize;
        let length = self.four()? as usize;
        input.get(start..start.checked_add(length)?)
    }

    /// A tag, and the value in `input` whose start and length follow it.
    pub(crate) fn place(&mut self, input: &'a [u8]) -> Option<(u16, &'a [u8])> {
        Some((self.two()?, self.part(input)?))
    }
}
