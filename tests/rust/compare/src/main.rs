//! Compares the port with the Rust by running both. tests/rust/run, dissect, record, bench and titles call it.

mod absent;
mod archive;
mod bench;
mod calls;
mod contexts;
mod counters;
mod entries;
mod generate;
mod lent;
mod m3ua;
mod messages;
mod oracle;
mod pcap;
mod random;
mod record;
mod replay;
mod rows;
mod sccp;
mod screen;
mod tally;
mod titles;
mod typed;

fn main() {
    let words: Vec<String> = std::env::args().collect();
    let number = |i: usize| words.get(i).and_then(|w| w.parse().ok()).unwrap_or(0);
    let right = match words.get(1).map(String::as_str) {
        Some("archive") => archive::compare(number(2), number(3)),
        Some("typed") => typed::compare(number(2), number(3)),
        Some("tally") => tally::compare(number(2), number(3)),
        Some("sccp") => sccp::compare(number(2), number(3)),
        Some("m3ua") => m3ua::compare(number(2), number(3)),
        Some("families") => m3ua::families::compare(number(2), number(3)),
        Some("calls") => replay::compare(number(2), number(3)),
        Some("screen") => screen::compare(number(2), number(3)),
        Some("contexts") => contexts::compare(number(2), number(3)),
        Some("rows") => rows::compare(&words[2]),
        Some("capture") => sccp::capture::capture(&words[2], number(3), number(4)),
        Some("dissected") => sccp::capture::dissected(number(2), number(3)),
        Some("m3ua-capture") => m3ua::capture::capture(&words[2], number(3), number(4)),
        Some("m3ua-dissected") => m3ua::capture::dissected(number(2), number(3)),
        Some("record") => record::record(&words[2]),
        Some("bench") => bench::bench(),
        Some("titles") => titles::titles(),
        _ => {
            eprintln!(
                "compare archive|typed|tally|sccp|m3ua|families|calls|screen|contexts|dissected|m3ua-dissected COUNT SEED, \
                 capture|m3ua-capture FILE COUNT SEED, rows FILE, record FOLDER, bench or titles"
            );
            false
        }
    };
    std::process::exit(i32::from(!right));
}
