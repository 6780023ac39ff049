//! The calls of either family that settle, and what they must give or refuse.
#![allow(dead_code)]

use navrost::{m3ua, Refusal};

/// The calls that settle the messages of a family.
pub struct Settling {
    settle: fn(&[u8], &mut [u8]) -> Result<usize, Refusal>,
    settled_length: fn(&[u8]) -> Result<usize, Refusal>,
    settle_vec: fn(&[u8]) -> Result<Vec<u8>, Refusal>,
}

pub const SUA: Settling = Settling {
    settle: navrost::settle,
    settled_length: navrost::settled_length,
    settle_vec: navrost::settle_vec,
};

pub const M3UA: Settling = Settling {
    settle: m3ua::settle,
    settled_length: m3ua::settled_length,
    settle_vec: m3ua::settle_vec,
};

impl Settling {
    /// The message has this form, by each of the calls.
    pub fn gives(&self, message: &[u8], form: &[u8]) {
        assert_eq!((self.settle_vec)(message).as_deref(), Ok(form));
        assert_eq!((self.settled_length)(message), Ok(form.len()));

        // What lies past the form stays as it was.
        let mut out = vec![0xee; form.len() + 3];
        assert_eq!((self.settle)(message, &mut out), Ok(form.len()));
        assert_eq!(out[..form.len()], *form);
        assert_eq!(out[form.len()..], [0xee; 3]);

        let mut out = vec![0xee; form.len()];
        assert_eq!((self.settle)(message, &mut out), Ok(form.len()));
        assert_eq!(out, form);

        // One octet less is refused, and nothing is written.
        let mut out = vec![0xee; form.len() - 1];
        let refusal = Refusal::OutputTooSmall(form.len() as u64);
        assert_eq!((self.settle)(message, &mut out), Err(refusal));
        assert!(out.iter().all(|&octet| octet == 0xee));
    }

    /// The message is refused so, by each of the calls, and nothing is written.
    pub fn refuses(&self, message: &[u8], refusal: Refusal, number: u8, values: &[u64]) {
        assert_eq!((refusal.number(), &*refusal.values()), (number, values));
        assert_eq!((self.settle_vec)(message), Err(refusal));
        assert_eq!((self.settled_length)(message), Err(refusal));
        for room in [0, 100] {
            let mut out = vec![0xee; room];
            assert_eq!((self.settle)(message, &mut out), Err(refusal));
            assert!(out.iter().all(|&octet| octet == 0xee));
        }
    }
}
