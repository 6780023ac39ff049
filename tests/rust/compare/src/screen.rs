//! `screen` beside the seven accessors whose answers it gives, over random tables, all through crates/replay.

pub mod kinds;
pub mod made;

use crate::calls::{screened, Call, BETWEEN, SCREENED};
use crate::random::{Group, Random};
use crate::replay::replay;
use kinds::{listed, Kind};
use std::collections::BTreeMap;

/// The tables that are put through the program together.
const CHUNK: usize = 500;
/// The lines of a table: that of `screen`, and those of the accessors.
const LINES: usize = 1 + SCREENED.len();
/// With so many tables or more, each kind must be met.
const MANY: u64 = 10_000;

/// A call's line, and those of the accessors.
fn lines(call: &Call) -> Vec<String> {
    std::iter::once(call.line()).chain(screened(call).iter().map(Call::line)).collect()
}

/// What was met, and what differed.
#[derive(Default)]
struct Check {
    differences: u64,
    met: BTreeMap<Kind, u64>,
}

impl Check {
    /// Compares the program's answer to each call with its answers to the seven, joined.
    fn answers(&mut self, seed: u64, calls: &[Call]) {
        let lines: Vec<String> = calls.iter().flat_map(lines).collect();
        for ((call, lines), given) in calls.iter().zip(lines.chunks(LINES)).zip(replay(&lines).chunks(LINES)) {
            let expected = given[1..].join(BETWEEN);
            if given[0] != expected {
                self.differences += 1;
                if self.differences <= 5 {
                    let (line, screen) = (&lines[0], &given[0]);
                    println!(
                        "a table of seed {seed}: {line:.600}\n  the accessors: {expected:.1200}\n  screen: {screen:.1200}"
                    );
                }
            }
            for kind in kinds::kinds(call, &given[1..]) {
                *self.met.entry(kind).or_default() += 1;
            }
        }
    }
}

/// Compares so many random tables; true where nothing differs and, if there are many, every kind was met.
pub fn compare(count: u64, seed: u64) -> bool {
    let mut check = Check::default();
    let mut calls = Vec::new();
    for i in 0..count {
        let mut r = Random::nth(Group::Screen, seed, i);
        calls.push(made::call(&mut r));
        if calls.len() == CHUNK || i + 1 == count {
            check.answers(seed, &calls);
            calls.clear();
        }
    }
    check.differences += listed("screen", kinds::groups(), &check.met, count >= MANY);
    println!("screen: {count} tables, {} differences", check.differences);
    check.differences == 0
}
