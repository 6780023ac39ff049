//! The entries of include/sua.h and include/m3ua.h. Each function answers the report of its entry.

use crate::account::{M3ua, Sua};

/// An entry's number (0 where it accepted) and its values, or the octets written or row gained.
pub(crate) type Report = [u64; 4];

extern "C" {
    fn sua_settle(
        input: *const u8,
        input_len: usize,
        out: *mut u8,
        out_len: usize,
        report: *mut u64,
        report_len: usize,
    ) -> u64;
    fn sua_read(
        input: *const u8,
        input_len: usize,
        out: *mut u8,
        out_len: usize,
        report: *mut u64,
        report_len: usize,
    ) -> u64;
    fn sua_encode(
        message_class: u8,
        message_type: u8,
        list: *const u8,
        list_len: usize,
        out: *mut u8,
        out_len: usize,
        report: *mut u64,
        report_len: usize,
    ) -> u64;
    fn sua_tally(
        digits: *const u8,
        digits_len: usize,
        lengths: *const u8,
        lengths_len: usize,
        input: *const u8,
        input_len: usize,
        messages: *mut u64,
        messages_len: usize,
        octets: *mut u64,
        octets_len: usize,
        report: *mut u64,
        report_len: usize,
    ) -> u64;
    fn sua_to_sccp(
        value: *const u8,
        value_len: usize,
        out: *mut u8,
        out_len: usize,
        report: *mut u64,
        report_len: usize,
    ) -> u64;
    fn sua_from_sccp(
        octets: *const u8,
        octets_len: usize,
        out: *mut u8,
        out_len: usize,
        report: *mut u64,
        report_len: usize,
    ) -> u64;
    fn m3ua_settle(
        input: *const u8,
        input_len: usize,
        out: *mut u8,
        out_len: usize,
        report: *mut u64,
        report_len: usize,
    ) -> u64;
    fn m3ua_read(
        input: *const u8,
        input_len: usize,
        out: *mut u8,
        out_len: usize,
        report: *mut u64,
        report_len: usize,
    ) -> u64;
    fn m3ua_encode(
        message_class: u8,
        message_type: u8,
        list: *const u8,
        list_len: usize,
        out: *mut u8,
        out_len: usize,
        report: *mut u64,
        report_len: usize,
    ) -> u64;
}

/// An entry that is lent octets, and writes octets.
type Converting = unsafe extern "C" fn(*const u8, usize, *mut u8, usize, *mut u64, usize) -> u64;

/// An entry that is lent a class, a type and a list, and writes their message.
type Encoding =
    unsafe extern "C" fn(u8, u8, *const u8, usize, *mut u8, usize, *mut u64, usize) -> u64;

/// Calls such an entry.
///
/// # Safety
///
/// The entry is defined for every contents and every length of its slices, and writes inside `out`
/// and its report only. Every entry declared above is such a one.
unsafe fn convert(entry: Converting, input: &[u8], out: &mut [u8]) -> Report {
    let mut report = [0; 4];
    // SAFETY: the pointers and lengths are those of three slices. A slice's pointer is never null,
    // also where it is empty, and one that is lent for writing overlaps no other.
    unsafe {
        entry(
            input.as_ptr(),
            input.len(),
            out.as_mut_ptr(),
            out.len(),
            report.as_mut_ptr(),
            report.len(),
        )
    };
    report
}

/// Calls such an entry.
///
/// # Safety
///
/// As for [`convert`], and the two numbers may be any.
unsafe fn write(entry: Encoding, class: u8, msg_type: u8, list: &[u8], out: &mut [u8]) -> Report {
    let mut report = [0; 4];
    // SAFETY: as in `convert`, with `list` in place of the input.
    unsafe {
        entry(
            class,
            msg_type,
            list.as_ptr(),
            list.len(),
            out.as_mut_ptr(),
            out.len(),
            report.as_mut_ptr(),
            report.len(),
        )
    };
    report
}

/// The entries that both families have.
pub(crate) trait Entries {
    /// Writes the settled form of `input`.
    fn settle(input: &[u8], out: &mut [u8]) -> Report;

    /// Writes the account of `input`.
    fn read(input: &[u8], out: &mut [u8]) -> Report;

    /// Writes the message of a class, a type and a list.
    fn encode(class: u8, msg_type: u8, list: &[u8], out: &mut [u8]) -> Report;
}

// SAFETY, of every call below: the entry is declared above.

impl Entries for Sua {
    fn settle(input: &[u8], out: &mut [u8]) -> Report {
        unsafe { convert(sua_settle, input, out) }
    }

    fn read(input: &[u8], out: &mut [u8]) -> Report {
        unsafe { convert(sua_read, input, out) }
    }

    fn encode(class: u8, msg_type: u8, list: &[u8], out: &mut [u8]) -> Report {
        unsafe { write(sua_encode, class, msg_type, list, out) }
    }
}

impl Entries for M3ua {
    fn settle(input: &[u8], out: &mut [u8]) -> Report {
        unsafe { convert(m3ua_settle, input, out) }
    }

    fn read(input: &[u8], out: &mut [u8]) -> Report {
        unsafe { convert(m3ua_read, input, out) }
    }

    fn encode(class: u8, msg_type: u8, list: &[u8], out: &mut [u8]) -> Report {
        unsafe { write(m3ua_encode, class, msg_type, list, out) }
    }
}

pub(crate) fn to_sccp(value: &[u8], out: &mut [u8]) -> Report {
    unsafe { convert(sua_to_sccp, value, out) }
}

pub(crate) fn from_sccp(octets: &[u8], out: &mut [u8]) -> Report {
    unsafe { convert(sua_from_sccp, octets, out) }
}

pub(crate) fn tally(
    digits: &[u8],
    lengths: &[u8],
    input: &[u8],
    messages: &mut [u64],
    octets: &mut [u64],
) -> Report {
    let mut report = [0; 4];
    // SAFETY: as in `convert`, with six slices; the entry writes inside `messages`, `octets` and
    // `report` only.
    unsafe {
        sua_tally(
            digits.as_ptr(),
            digits.len(),
            lengths.as_ptr(),
            lengths.len(),
            input.as_ptr(),
            input.len(),
            messages.as_mut_ptr(),
            messages.len(),
            octets.as_mut_ptr(),
            octets.len(),
            report.as_mut_ptr(),
            report.len(),
        )
    };
    report
}
