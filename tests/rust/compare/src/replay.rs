//! Calls through crates/replay, beside the Rust, line by line.

use crate::absent;
use crate::calls::{answer, Call};
use crate::generate::{call, refusals, Sizes, CALLS};
use crate::random::{Group, Random};
use crate::screen::kinds::{listed, Kind};
use std::collections::{BTreeMap, BTreeSet};
use std::io::Write;
use std::process::{Command, Stdio};

/// The characters that the program reads in one run, at most.
const MOST_TEXT: usize = 900_000;
/// With so many calls or more, each function that shows a number of absent digits must show one above 0 of an odd declared count,
/// and one of an even.
const MANY: u64 = 20_000;
/// At this rate 100,000 calls meet the rarest refusal of a function nine times on average.
const SIZES: Sizes = Sizes { large_once_in: 20 };
const ABSENT: &str = "titles with absent digits, by the declared count";

/// The lines that the program answers to calls, one for each.
pub fn replay(lines: &[String]) -> Vec<String> {
    let mut answers = Vec::new();
    let mut text = String::new();
    for (i, line) in lines.iter().enumerate() {
        text.push_str(line);
        text.push('\n');
        if i + 1 == lines.len() || text.len() + lines[i + 1].len() >= MOST_TEXT {
            answers.extend(run(std::mem::take(&mut text)));
            answers.resize(i + 1, "(no line)".into());
        }
    }
    answers
}

/// One run of the program.
fn run(text: String) -> Vec<String> {
    let program = std::env::var("REPLAY").expect("REPLAY names the program");
    let mut child = Command::new(&program).stdin(Stdio::piped()).stdout(Stdio::piped()).spawn().expect("the program starts");
    let mut input = child.stdin.take().expect("a pipe");
    let writer = std::thread::spawn(move || input.write_all(text.as_bytes()));
    let output = child.wait_with_output().expect("the program ends");
    writer.join().expect("no panic").expect("the program reads all");
    String::from_utf8_lossy(&output.stdout).lines().map(str::to_string).collect()
}

/// A call as a line, marked where the answer is document 01's or 02's and not the Rust's.
pub fn marked(call: &Call, answer: &str) -> String {
    let text = call.octets.iter().all(|o| o.len() > 255 || std::str::from_utf8(o).is_ok() || !takes_digits(&call.name));
    if call.name == "contexts_in" || refusals(&call.name, answer).iter().any(|n| *n >= 10) || !text {
        format!("beyond {}", call.line())
    } else {
        call.line()
    }
}

fn takes_digits(name: &str) -> bool {
    matches!(name, "encode_gt_digits" | "gt_digits_length" | "title_encode" | "e164" | "with_gt")
}

/// Compares lines with what the program answers; the number that differ.
fn differing(pairs: &[(String, String)], what: &str) -> usize {
    let lines: Vec<String> = pairs.iter().map(|(line, _)| line.clone()).collect();
    let mut differences = 0;
    for ((line, expected), given) in pairs.iter().zip(replay(&lines)) {
        if given != *expected {
            differences += 1;
            if differences <= 5 {
                println!("{what}: {line:.600}\n  the Rust: {expected:.600}\n  the port: {given:.600}");
            }
        }
    }
    differences
}

/// Compares so many random calls; true where none differs.
pub fn compare(count: u64, seed: u64) -> bool {
    let mut differences = 0;
    let mut chunk = Vec::new();
    let mut short: BTreeMap<Kind, u64> = BTreeMap::new();
    let mut unseen: BTreeSet<(&str, u64)> =
        CALLS.iter().flat_map(|(name, numbers)| numbers.iter().map(|n| (*name, *n)).chain([(*name, 0)])).collect();
    for i in 0..count {
        let mut r = Random::nth(Group::Calls, seed, i);
        let name = CALLS[(i % CALLS.len() as u64) as usize].0;
        let call = call(&mut r, name, SIZES);
        let expected = answer(&call);
        for n in refusals(name, &expected) {
            unseen.remove(&(name, n));
        }
        for title in absent::shown(name, &expected) {
            *short.entry((ABSENT, absent::kind(name, title))).or_default() += 1;
        }
        chunk.push((marked(&call, &expected), expected));
        if chunk.len() == 5_000 || i + 1 == count {
            differences += differing(&chunk, &format!("a call of seed {seed}"));
            chunk.clear();
        }
    }
    if count >= 100_000 && !unseen.is_empty() {
        println!("calls: never answered: {unseen:?}");
        differences += 1;
    }
    differences += listed("calls", vec![(ABSENT, absent::kinds())], &short, count >= MANY) as usize;
    println!("calls: {count} of {} functions, {differences} differences", CALLS.len());
    differences == 0
}
