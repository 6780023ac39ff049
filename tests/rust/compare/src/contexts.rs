//! `contexts_in` through crates/replay over random tables and sets, beside a plain reading of document 02's words and, where
//! the set is one number and the value no more than one, beside the Rust's accessor compared with that number.

mod kinds;
pub mod made;

use crate::calls::{answer, Call};
use crate::random::{Group, Random};
use crate::replay::replay;
use crate::screen::kinds::{listed, Kind};
use kinds::Asked;
use std::collections::BTreeMap;

/// The tables that are put through the program together.
const CHUNK: usize = 5_000;
/// With so many tables or more, each kind must be met.
const MANY: u64 = 10_000;

/// The numbers that a value lists; an unfinished one is left out.
fn numbers(value: &[u8]) -> Vec<u32> {
    value.chunks_exact(4).map(|four| u32::from_be_bytes(four.try_into().expect("four octets"))).collect()
}

/// Whether the Rust's accessor gives the only number of the set, where that is what is asked.
fn by_accessor(call: &Call) -> Option<String> {
    let number = Asked::of(call).single()?;
    let numbers = call.numbers[..call.numbers.len() - 2].to_vec();
    let given = answer(&Call { name: "routing_context".into(), numbers, octets: call.octets.clone(), room: None });
    Some(match given.strip_prefix("ok ") {
        Some(value) if value == number.to_string() => "yes".into(),
        _ if given.starts_with("refused") => given,
        _ => "no".into(),
    })
}

/// What was met, and what differed.
#[derive(Default)]
struct Check {
    differences: u64,
    beside: u64,
    met: BTreeMap<Kind, u64>,
}

impl Check {
    fn answers(&mut self, seed: u64, calls: &[Call]) {
        let lines: Vec<String> = calls.iter().map(Call::line).collect();
        for ((call, line), given) in calls.iter().zip(&lines).zip(replay(&lines)) {
            let (plain, accessor) = (answer(call), by_accessor(call));
            self.beside += u64::from(accessor.is_some());
            if given != plain || accessor.as_ref().is_some_and(|answer| given != *answer) {
                self.differences += 1;
                if self.differences <= 5 {
                    let accessor = accessor.unwrap_or("not asked".into());
                    println!(
                        "a table of seed {seed}: {line:.600}\n  read: {plain}, by the accessor: {accessor}, the port: {given}"
                    );
                }
            }
            for kind in Asked::of(call).kinds() {
                *self.met.entry(kind).or_default() += 1;
            }
        }
    }
}

/// Compares so many random tables; true where nothing differs and, if there are many, every kind was met.
pub fn compare(count: u64, seed: u64) -> bool {
    let mut check = Check::default();
    let mut calls = Vec::new();
    for i in 0..count {
        let mut r = Random::nth(Group::Contexts, seed, i);
        calls.push(made::call(&mut r));
        if calls.len() == CHUNK || i + 1 == count {
            check.answers(seed, &calls);
            calls.clear();
        }
    }
    check.differences += listed("contexts", kinds::groups(), &check.met, count >= MANY);
    println!("contexts: {count} tables, {} beside the accessor, {} differences", check.beside, check.differences);
    check.differences == 0
}
