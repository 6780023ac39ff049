//! Every row of docs/DIFFERENCES.md with its input, and the worked messages S13 and S14: what the Rust does, called directly,
//! and what the port answers. Both are checked against the row's cells.

mod accessors;
mod addresses;
mod constructors;
mod digits;
mod messages;
mod parameters;
mod point_codes;
mod worked;

use crate::calls::{word, Call};
use crate::oracle::Refused;
use crate::replay::replay;
use sua::address::{GlobalTitle, SuaAddress};
use sua::error::SuaError;
use sua::header::{CommonHeader, MessageType};
use sua::message::SuaMessage;
use sua::parameter::{tags, Parameter};

/// The entries that are no rows of the document.
const WORKED: &str = "Worked";

struct Row {
    /// The first words of the section's heading.
    section: &'static str,
    /// The row's first cell.
    input: &'static str,
    rust: Box<dyn Fn() -> String>,
    /// What the Rust gives.
    said: &'static str,
    /// The port's calls, each with its answer.
    port: Vec<(String, String)>,
}

fn rows() -> Vec<Row> {
    [
        ("Digits", digits::rows()),
        ("Parameters", parameters::rows()),
        ("Addresses", addresses::rows()),
        ("Messages", messages::rows()),
        ("Accessors", accessors::rows()),
        ("Point codes", point_codes::rows()),
        ("Constructors", constructors::rows()),
        (WORKED, worked::rows()),
    ]
    .into_iter()
    .flat_map(|(section, rows)| rows.into_iter().map(move |row| Row { section, ..row }))
    .collect()
}

fn row<T: Shown>(input: &'static str, rust: impl Fn() -> T + 'static, said: &'static str) -> Row {
    Row { section: "", input, rust: Box::new(move || rust().shown()), said, port: Vec::new() }
}

impl Row {
    fn port(mut self, call: impl Into<String>, answer: impl Into<String>) -> Row {
        self.port.push((call.into(), answer.into()));
        self
    }

    /// Prints a difference.
    fn differs(&self, what: &str, expected: &str, given: &str) {
        println!("{}: {}: {what:.600}\n  expected: {expected:.600}\n  given: {given:.600}", self.section, self.input);
    }
}

/// What the Rust gave, as a text: octets as in a call, a refusal in document 01's numbers.
trait Shown {
    fn shown(self) -> String;
}

impl Shown for String {
    fn shown(self) -> String {
        self
    }
}

impl Shown for Vec<u8> {
    fn shown(self) -> String {
        word(&self)
    }
}

impl<T: Shown> Shown for Option<T> {
    fn shown(self) -> String {
        self.map_or("none".into(), T::shown)
    }
}

impl<T: Shown> Shown for Result<T, SuaError> {
    fn shown(self) -> String {
        match self {
            Ok(given) => given.shown(),
            Err(e) => {
                let Refused { number, values } = Refused::from(e);
                values.iter().fold(format!("refused {number}"), |text, value| format!("{text} {value}"))
            }
        }
    }
}

impl<A: Shown, B: Shown> Shown for (A, B) {
    fn shown(self) -> String {
        format!("{}; {}", self.0.shown(), self.1.shown())
    }
}

impl Shown for GlobalTitle {
    fn shown(self) -> String {
        format!("title {} '{}'", self.gti, self.digits)
    }
}

impl Shown for SuaAddress {
    fn shown(self) -> String {
        let mut text = format!("routing {}, indicator {}", self.routing_indicator.value(), self.address_indicator());
        text += &self.global_title.map_or(String::new(), |title| format!(", {}", title.shown()));
        text += &self.point_code.map_or(String::new(), |code| format!(", code {code:#06x}"));
        text += &self.ssn.map_or(String::new(), |ssn| format!(", ssn {ssn}"));
        text + &format!(", others {}", self.other.len())
    }
}

impl Shown for Vec<Parameter> {
    fn shown(self) -> String {
        format!("parameters {}", self.len())
    }
}

impl Shown for SuaMessage {
    fn shown(self) -> String {
        format!("{}, {}", self.message_type, self.parameters.shown())
    }
}

impl Shown for CommonHeader {
    fn shown(self) -> String {
        format!("{}, length {}", self.message_type, self.message_length)
    }
}

/// The octets that a word of a call stands for.
fn octets(word: &str) -> Vec<u8> {
    Call::parse(&format!("octets {word}")).octets.remove(0)
}

/// How many octets were written, and the length that the parameter at a position has there.
fn cut(written: &[u8], at: usize) -> String {
    format!("{} octets, length {}", written.len(), u16::from_be_bytes([written[at + 2], written[at + 3]]))
}

fn zeros(tag: u16, length: usize) -> Parameter {
    Parameter::new(tag, vec![0; length])
}

/// The octets that 256 digits take in a title, and the count beside them.
fn many_digits() -> Result<String, SuaError> {
    let written = GlobalTitle::e164("1".repeat(256)).encode()?;
    Ok(format!("{} octets, count {}", written.len() - GlobalTitle::HEADER_SIZE, written[4]))
}

/// Octets, so many parameters of 65,531 octets of 0 with their padding, and octets behind them.
fn long(front: &str, tag: &str, count: usize, behind: &str) -> String {
    format!("x{front}{}+{behind}", format!("+{tag}ffff+00*65532").repeat(count))
}

/// An address value of 1,048,577 octets: 15 others of 65,531 octets, one of 65,529.
fn long_address() -> String {
    long("00020000", "8005", 15, "8005fffd+00*65529")
}

/// `has_title` and a title, where there is none.
const NO_TITLE: &str = "0 0 0 0 0 0 0 x00*255";
/// `with_ssn_pc(8, 1)` in a call, without and with one other.
const PLAIN: &str = "2 0 1 1 0 0 0 0 0 0 0 1 1 1 8 0";
const WITH_OTHER: &str = "2 0 1 1 0 0 0 0 0 0 0 1 1 1 8 1";

/// What reading an address answers with no table lent: routing and include bits, title, and the numbers behind it.
fn taken(front: &str, title: &str, behind: &str) -> String {
    format!("ok {front} {title} {behind} t s l")
}

/// What refusing an address answers with no table lent.
fn nothing(refusal: &str) -> String {
    format!("refused {refusal} 0 0 0 0 {NO_TITLE} 0 0 0 0 0 t s l")
}

/// `with_ssn_pc(8, 1)` with others of 0.
fn plain(others: &[usize]) -> SuaAddress {
    let other = others.iter().map(|length| zeros(tags::HOSTNAME, *length)).collect();
    SuaAddress { other, ..SuaAddress::with_ssn_pc(8, 1) }
}

/// A message of parameters: tags, and values as in a call.
fn holding(parameters: &[(u16, &str)]) -> SuaMessage {
    SuaMessage::new(MessageType::Cldt, parameters.iter().map(|(tag, value)| Parameter::new(*tag, octets(value))).collect())
}

/// The document's rows: heading and cells.
fn document(text: &str) -> Vec<(String, Vec<String>)> {
    let mut heading = String::new();
    let mut rows = Vec::new();
    for line in text.lines() {
        if let Some(new) = line.strip_prefix("## ") {
            heading = new.into();
        } else if line.starts_with("| ") && !line.starts_with("| input |") {
            let cells = line.trim_matches('|').split('|').map(|cell| cell.trim().to_string()).collect();
            rows.push((heading.clone(), cells));
        }
    }
    rows
}

/// Whether a text has what the Rust's cell says: a refusal or none, and every word with a digit.
fn told(cell: &str, text: &str) -> bool {
    let (cell, text) = (cell.replace([',', ';', ':', '`'], "").to_lowercase(), text.to_lowercase());
    cell.contains("refused") == text.contains("refused")
        && cell.split(' ').filter(|w| w.contains(|c: char| c.is_ascii_digit())).all(|w| text.contains(w))
}

/// The refusals that the port's cell names, as its answers begin: a number with its values in brackets, or 15.
fn refusals(cell: &str) -> Vec<String> {
    let number = |text: &str| match text.strip_prefix("0x") {
        Some(digits) => u64::from_str_radix(digits, 16).ok(),
        None => text.parse().ok(),
    };
    let mut found = Vec::new();
    let mut parts = cell.split(" (").peekable();
    while let (Some(part), Some(behind)) = (parts.next(), parts.peek()) {
        let first = part.rsplit(' ').next().and_then(number);
        let values: Option<Vec<u64>> = behind.split(')').next().and_then(|list| list.split(", ").map(number).collect());
        if let (Some(first), Some(values)) = (first, values) {
            found.push(values.iter().fold(format!("refused {first} "), |text, value| format!("{text}{value} ")));
        }
    }
    if cell == "15" {
        found.push("refused 15 ".into());
    }
    found
}

/// The differences between a row and its cells.
fn unlike(row: &Row, cells: &[String]) -> usize {
    let [_, _, rust, port] = cells else {
        row.differs("the document", "four cells", &cells.join(" | "));
        return 1;
    };
    let mut differences = 0;
    if !told(rust, row.said) {
        row.differs("the document on the Rust", row.said, rust);
        differences += 1;
    }
    let named = refusals(port);
    let answers = row.port.iter().map(|(_, answer)| format!("{answer} "));
    let given: Vec<String> = answers.filter(|answer| answer.starts_with("refused")).collect();
    let all_given = named.iter().all(|n| given.iter().any(|g| g.starts_with(n)));
    let all_named = given.iter().all(|g| named.iter().any(|n| g.starts_with(n)));
    if !all_given || !all_named {
        row.differs("the document on the port", &given.join("; "), port);
        differences += 1;
    }
    differences
}

/// Compares every row with the Rust, the port and the document at a path; true where nothing differs.
pub fn compare(path: &str) -> bool {
    let rows = rows();
    let mut differences = 0;
    for row in &rows {
        let given = (row.rust)();
        if given != row.said {
            row.differs("the Rust", row.said, &given);
            differences += 1;
        }
    }
    let calls: Vec<String> = rows.iter().flat_map(|row| row.port.iter().map(|(call, _)| call.clone())).collect();
    let expected = rows.iter().flat_map(|row| row.port.iter().map(move |(call, answer)| (row, call, answer)));
    for ((row, call, answer), given) in expected.zip(replay(&calls)) {
        if *answer != given {
            row.differs(&format!("the port: {call}"), answer, &given);
            differences += 1;
        }
    }
    let mut left: Vec<&Row> = rows.iter().filter(|row| row.section != WORKED).collect();
    for (heading, cells) in document(&std::fs::read_to_string(path).expect("the document")) {
        match left.iter().position(|row| heading.starts_with(row.section) && row.input == cells[0]) {
            Some(i) => differences += unlike(left.remove(i), &cells),
            None => {
                println!("{heading}: {}: no entry", cells[0]);
                differences += 1;
            }
        }
    }
    for row in left {
        println!("{}: {}: not in the document", row.section, row.input);
        differences += 1;
    }
    println!("rows: {} rows, {differences} differences", rows.len());
    differences == 0
}
