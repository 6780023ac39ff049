//! The entries that both families of messages have, settle, read and encode, and what each is expected to write.

use crate::m3ua::plain;
use crate::oracle::{self, Answer};

extern "C" {
    fn sua_settle(input: *const u8, n: usize, out: *mut u8, out_n: usize, report: *mut u64, report_n: usize) -> u64;
    fn sua_read(input: *const u8, n: usize, out: *mut u8, out_n: usize, report: *mut u64, report_n: usize) -> u64;
    fn sua_encode(
        class: u8,
        msg_type: u8,
        list: *const u8,
        n: usize,
        out: *mut u8,
        out_n: usize,
        report: *mut u64,
        report_n: usize,
    ) -> u64;
    fn m3ua_settle(input: *const u8, n: usize, out: *mut u8, out_n: usize, report: *mut u64, report_n: usize) -> u64;
    fn m3ua_read(input: *const u8, n: usize, out: *mut u8, out_n: usize, report: *mut u64, report_n: usize) -> u64;
    fn m3ua_encode(
        class: u8,
        msg_type: u8,
        list: *const u8,
        n: usize,
        out: *mut u8,
        out_n: usize,
        report: *mut u64,
        report_n: usize,
    ) -> u64;
}

/// A family of messages.
#[derive(Clone, Copy, Debug, PartialEq, Eq, PartialOrd, Ord)]
pub enum Family {
    Sua,
    M3ua,
}

/// An entry of a family, called on a message, or on a list with a class and a type.
#[derive(Clone, Copy, Debug)]
pub enum Entry {
    Settle,
    Read,
    Encode(u8, u8),
}

impl Entry {
    pub fn call(self, family: Family, input: &[u8], out: &mut [u8], report: &mut [u64]) -> u64 {
        let (i, n, o, on) = (input.as_ptr(), input.len(), out.as_mut_ptr(), out.len());
        let (r, rn) = (report.as_mut_ptr(), report.len());
        // SAFETY: each pointer comes from a slice with its length, and the slices do not overlap.
        unsafe {
            match (family, self) {
                (Family::Sua, Entry::Settle) => sua_settle(i, n, o, on, r, rn),
                (Family::Sua, Entry::Read) => sua_read(i, n, o, on, r, rn),
                (Family::Sua, Entry::Encode(class, msg_type)) => sua_encode(class, msg_type, i, n, o, on, r, rn),
                (Family::M3ua, Entry::Settle) => m3ua_settle(i, n, o, on, r, rn),
                (Family::M3ua, Entry::Read) => m3ua_read(i, n, o, on, r, rn),
                (Family::M3ua, Entry::Encode(class, msg_type)) => m3ua_encode(class, msg_type, i, n, o, on, r, rn),
            }
        }
    }

    /// What it is expected to write: of SUA by the Rust, of M3UA by the plain reading.
    pub fn expected(self, family: Family, input: &[u8]) -> Answer<Vec<u8>> {
        match (family, self) {
            (Family::Sua, Entry::Settle) => oracle::form(input),
            (Family::Sua, Entry::Read) => oracle::account(input),
            (Family::Sua, Entry::Encode(class, msg_type)) => oracle::encode_flat(class, msg_type, input),
            (Family::M3ua, Entry::Settle) => plain::form(input),
            (Family::M3ua, Entry::Read) => plain::account(input),
            (Family::M3ua, Entry::Encode(class, msg_type)) => plain::encode_flat(class, msg_type, input),
        }
    }

    pub fn name(self) -> &'static str {
        match self {
            Entry::Settle => "settle",
            Entry::Read => "read",
            Entry::Encode(..) => "encode",
        }
    }
}
