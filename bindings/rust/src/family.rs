//! What the calls of a family do with its entries. The public functions of these names say more.

use crate::account::{Account, Reading};
use crate::entries::Entries;
use crate::push_parameter;
use crate::refusal::{answer, Refusal};

/// The most octets that a message may have.
const MOST: usize = 1_048_576;

/// Writes the settled form of a message, and answers its length.
pub(crate) fn settle<F: Entries>(input: &[u8], out: &mut [u8]) -> Result<usize, Refusal> {
    answer(F::settle(input, out), out.len())
}

/// The length of a message's settled form.
pub(crate) fn settled_length<F: Entries>(input: &[u8]) -> Result<usize, Refusal> {
    // A form has at least eight octets, so an empty output is refused, with the length needed.
    match settle::<F>(input, &mut []) {
        Err(Refusal::OutputTooSmall(length)) => Ok(usize::try_from(length).unwrap_or(usize::MAX)),
        other => other,
    }
}

/// The settled form of a message.
pub(crate) fn settle_vec<F: Entries>(input: &[u8]) -> Result<Vec<u8>, Refusal> {
    // A form is never longer than the message, rounded up to a multiple of 4; a message above
    // 1,048,576 octets has none.
    written((input.len().min(MOST) + 3) / 4 * 4, |out| {
        settle::<F>(input, out)
    })
}

/// Writes the account of a message, and reads it from there.
pub(crate) fn read<'a, F: Entries>(
    input: &'a [u8],
    account: &'a mut [u8],
) -> Result<Account<'a, F>, Refusal> {
    let length = answer(F::read(input, account), account.len())?;
    Ok(Account::of(
        input,
        account.get(..length).unwrap_or_default(),
    ))
}

/// Reads a message into an account that the reading owns.
pub(crate) fn read_vec<F: Entries>(input: &[u8]) -> Result<Reading<'_, F>, Refusal> {
    // An account has at most 5 octets for each 2 of the message.
    let octets = written(input.len().min(MOST) * 5 / 2, |out| {
        answer(F::read(input, out), out.len())
    })?;
    Ok(Reading::of(input, octets))
}

/// Writes the message of a class, a type and a list, and answers its length.
pub(crate) fn encode<F: Entries>(
    class: u8,
    msg_type: u8,
    list: &[u8],
    out: &mut [u8],
) -> Result<usize, Refusal> {
    answer(F::encode(class, msg_type, list, out), out.len())
}

/// The message of a class, a type and parameters.
pub(crate) fn encode_vec<F: Entries>(
    class: u8,
    msg_type: u8,
    parameters: &[(u16, &[u8])],
) -> Result<Vec<u8>, Refusal> {
    let mut list = Vec::new();
    for &(tag, value) in parameters {
        if let Err(refusal) = push_parameter(&mut list, tag, value) {
            // 4, and 10 of a parameter in front of this one, come first.
            return Err(match encode::<F>(class, msg_type, &list, &mut []) {
                Err(first) if matches!(first.number(), 4 | 10) => first,
                _ => refusal,
            });
        }
    }
    // A message has at most 8 octets more than the list and one more for each parameter.
    let room = list
        .len()
        .saturating_add(parameters.len())
        .saturating_add(8);
    written(room.min(MOST), |out| {
        encode::<F>(class, msg_type, &list, out)
    })
}

/// The octets that `call` writes, where it is lent room for so many.
fn written(
    room: usize,
    call: impl FnOnce(&mut [u8]) -> Result<usize, Refusal>,
) -> Result<Vec<u8>, Refusal> {
    let mut out = vec![0; room];
    let length = call(&mut out)?;
    out.truncate(length);
    Ok(out)
}
