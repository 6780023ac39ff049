//! Addresses to and from SCCP through sua_to_sccp, sua_from_sccp and bindings/rust, beside a plain reading of both layouts.

pub mod capture;
mod kinds;
mod made;
mod parties;
mod plain;

use crate::lent::{how, shown, Lent};
use crate::oracle::{read_address, refused, Answer};
use crate::random::{Group, Random};
use kinds::{Kind, ANSWERS};
use std::collections::BTreeMap;

extern "C" {
    fn sua_to_sccp(value: *const u8, n: usize, out: *mut u8, out_n: usize, report: *mut u64, report_n: usize) -> u64;
    fn sua_from_sccp(octets: *const u8, n: usize, out: *mut u8, out_n: usize, report: *mut u64, report_n: usize) -> u64;
}

/// The values and the party addresses that are compared, at least.
const LEAST: u64 = 200_000;

#[derive(Clone, Copy, Debug)]
enum Way {
    To,
    From,
}

impl Way {
    fn name(self) -> &'static str {
        match self {
            Way::To => "to",
            Way::From => "from",
        }
    }

    fn call(self, input: &[u8], out: &mut [u8], report: &mut [u64]) -> u64 {
        let (i, n, o, on) = (input.as_ptr(), input.len(), out.as_mut_ptr(), out.len());
        let (r, rn) = (report.as_mut_ptr(), report.len());
        // SAFETY: each pointer comes from a slice with its length, and the slices do not overlap.
        unsafe {
            match self {
                Way::To => sua_to_sccp(i, n, o, on, r, rn),
                Way::From => sua_from_sccp(i, n, o, on, r, rn),
            }
        }
    }

    fn typed(self, input: &[u8], out: &mut [u8]) -> Answer<usize> {
        let answer = match self {
            Way::To => navrost::to_sccp(input, out),
            Way::From => navrost::from_sccp(input, out),
        };
        answer.map_err(refused)
    }

    /// What bindings/rust writes into an output that is always long enough.
    fn written(self, input: &[u8]) -> Answer<Vec<u8>> {
        let mut out = vec![0; 160];
        let n = self.typed(input, &mut out)?;
        out.truncate(n);
        Ok(out)
    }

    fn expected(self, input: &[u8]) -> Answer<Vec<u8>> {
        match self {
            Way::To => plain::to_sccp(input),
            Way::From => plain::from_sccp(input),
        }
    }
}

/// What was met, and what differed.
#[derive(Default)]
struct Check {
    calls: u64,
    differences: u64,
    met: BTreeMap<Kind, u64>,
}

impl Check {
    fn meet(&mut self, kinds: Vec<Kind>) {
        for kind in kinds {
            *self.met.entry(kind).or_default() += 1;
        }
    }

    fn holds(&mut self, right: bool, what: impl FnOnce() -> String) {
        if !right {
            self.differences += 1;
            if self.differences <= 5 {
                println!("sccp: {}", what());
            }
        }
    }

    /// Prints how often each kind was met; one that never was is a difference.
    fn listed(&mut self) {
        for (group, kinds) in kinds::groups() {
            let times = |kind: &String| self.met.get(&(group, kind.clone())).copied().unwrap_or(0);
            let texts: Vec<String> = kinds.iter().map(|kind| format!("{kind}: {}", times(kind))).collect();
            println!("sccp, {group}: {}", texts.join(", "));
            for kind in kinds.iter().filter(|kind| times(kind) == 0) {
                println!("sccp, {group}: never met: {kind}");
                self.differences += 1;
            }
        }
    }

    /// A call of the entry and one of bindings/rust, with an output of this length that holds anything: both must answer so.
    fn answers(&mut self, r: &mut Random, way: Way, input: &[u8], expected: &Answer<Vec<u8>>, room: usize) {
        let lent = Lent::new(r, expected, room);
        let entry = lent.entry(r, |out, report| way.call(input, out, report));
        let typed = lent.typed(|out| way.typed(input, out));
        self.calls += 1;
        for difference in [entry, typed].into_iter().flatten() {
            self.holds(false, || format!("{way:?}, {} octets {}, {difference}", input.len(), shown(input)));
        }
        self.meet(vec![(ANSWERS, format!("{} {}", way.name(), how(expected, room)))]);
    }

    /// One call, or several where the input converts: with just enough room, more, an octet less, some, and none.
    fn compare(&mut self, r: &mut Random, way: Way, input: &[u8]) {
        let expected = way.expected(input);
        match &expected {
            Ok(octets) => {
                let n = octets.len();
                for room in [n, n + 1 + r.below(40), n - 1, r.below(n), 0] {
                    self.answers(r, way, input, &expected, room);
                }
            }
            Err(_) => {
                let room = r.pick(&[0, 1, 135, 160, 200]);
                self.answers(r, way, input, &expected, room);
            }
        }
    }

    /// An address value to SCCP. What converts comes back with the same meaning, and then as the same octets.
    fn value(&mut self, r: &mut Random, value: &[u8]) {
        self.meet(kinds::of_value(value));
        self.compare(r, Way::To, value);
        let Ok(party) = Way::To.written(value) else { return };
        let back = Way::From.written(&party);
        let meaning = back.clone().and_then(|value| read_address(&value));
        self.holds(meaning == read_address(value), || format!("{} comes back as {meaning:?}", shown(value)));
        let again = back.and_then(|value| Way::To.written(&value));
        self.holds(again.as_ref() == Ok(&party), || format!("{} goes again as {again:?}", shown(value)));
    }

    /// Octets from SCCP. What converts comes back equal.
    fn party(&mut self, r: &mut Random, octets: &[u8]) {
        self.meet(kinds::of_party(octets));
        self.compare(r, Way::From, octets);
        let Ok(value) = Way::From.written(octets) else { return };
        let back = Way::To.written(&value);
        self.holds(back.as_deref() == Ok(octets), || format!("{} comes back as {back:?}", shown(octets)));
    }
}

/// Compares so many random values and party addresses, 200,000 of each at least; true where nothing differs and every kind was
/// met.
pub fn compare(count: u64, seed: u64) -> bool {
    let mut check = Check::default();
    let count = count.max(LEAST);
    for i in 0..count {
        let mut r = Random::nth(Group::Sccp, seed, i);
        let value = made::value(&mut r);
        check.value(&mut r, &value);
        let party = parties::party(&mut r);
        check.party(&mut r, &party);
    }
    check.listed();
    println!("sccp: {count} values, {count} party addresses, {} calls, {} differences", check.calls, check.differences);
    check.differences == 0
}
