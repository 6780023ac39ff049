//! Calls with a lent output that holds something before: what each must answer, and what it must leave alone.

use crate::calls::report;
use crate::oracle::{deliver, Answer};
use crate::random::Random;

/// What octets show of themselves: their first ones.
pub fn shown(octets: &[u8]) -> String {
    octets.iter().take(400).map(|b| format!("{b:02x}")).collect()
}

/// An output with an octet in front and one behind, before a call and as the call must leave it, and what the call must answer.
pub struct Lent {
    before: Vec<u8>,
    after: Vec<u8>,
    answer: Answer<usize>,
}

impl Lent {
    /// An output of this length that holds anything, for a call that is expected to write so.
    pub fn new(r: &mut Random, expected: &Answer<Vec<u8>>, room: usize) -> Lent {
        let before = r.octets(room + 2);
        let mut after = before.clone();
        let answer = deliver(expected.clone(), &mut after[1..=room]);
        Lent { before, after, answer }
    }

    fn room(&self) -> usize {
        self.before.len() - 2
    }

    /// The report of an entry for C. Its first number is 0 where the call is accepted.
    pub fn report(&self) -> [u64; 4] {
        report(&self.answer)
    }

    /// How an entry for C, which is lent output and report, differs from what is expected. What stands behind the octets written,
    /// around the output, and behind the report's four numbers must be left alone.
    pub fn entry(&self, r: &mut Random, call: impl FnOnce(&mut [u8], &mut [u64]) -> u64) -> Option<String> {
        let numbers = self.report();
        let places = if r.once_in(16) { r.below(6) } else { 4 };
        let (mut lent, mut wanted) = ([77; 6], [77; 6]);
        wanted[..places.min(4)].copy_from_slice(&numbers[..places.min(4)]);
        let mut out = self.before.clone();
        let number = call(&mut out[1..=self.room()], &mut lent[..places]);
        (number != numbers[0] || lent != wanted || out != self.after).then(|| {
            format!(
                "room {}\n  expected: {numbers:?} {}\n  the port: {number} {lent:?} {}",
                self.room(),
                shown(&self.after),
                shown(&out)
            )
        })
    }

    /// How a function of bindings/rust differs from what is expected.
    pub fn typed(&self, call: impl FnOnce(&mut [u8]) -> Answer<usize>) -> Option<String> {
        let mut out = self.before.clone();
        let answer = call(&mut out[1..=self.room()]);
        (answer != self.answer || out != self.after).then(|| {
            format!(
                "room {}\n  expected: {:?} {}\n  bindings/rust: {answer:?} {}",
                self.room(),
                self.answer,
                shown(&self.after),
                shown(&out)
            )
        })
    }
}

/// What a call with an output of this length answers, by number and room.
pub fn how(expected: &Answer<Vec<u8>>, room: usize) -> String {
    match expected {
        Err(refused) => refused.number.to_string(),
        Ok(octets) if octets.len() == room => "just enough room".into(),
        Ok(octets) if octets.len() < room => "more room".into(),
        Ok(_) if room == 0 => "14 without room".into(),
        Ok(octets) if octets.len() == room + 1 => "14 an octet short".into(),
        Ok(_) => "14".into(),
    }
}
