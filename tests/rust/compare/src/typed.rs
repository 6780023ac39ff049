//! Messages through bindings/rust, beside the Rust: typed parameters and addresses, forms, and messages written.

use crate::counters;
use crate::messages;
use crate::oracle::{account, encode_flat, form, is_address, read_message, Answer};
use crate::random::{Group, Random};
use sua::address::SuaAddress;

/// A refusal's number and values, as the oracle has them.
fn numbers<T>(answer: Result<T, navrost::Refusal>) -> Result<T, (u64, Vec<u64>)> {
    answer.map_err(|r| (u64::from(r.number()), r.values().to_vec()))
}

fn expected<T>(answer: Answer<T>) -> Result<T, (u64, Vec<u64>)> {
    answer.map_err(|r| (r.number, r.values))
}

/// What an address is, as both sides can show it.
fn shown(a: &SuaAddress) -> String {
    let title = a.global_title.as_ref().map(|t| (t.gti, t.translation_type, t.numbering_plan, t.nature_of_address, &*t.digits));
    let others: Vec<(u16, &[u8])> = a.other.iter().map(|p| (p.tag, &*p.value)).collect();
    let include = (a.include_gt, a.include_pc, a.include_ssn);
    format!("{} {include:?} {title:?} {:?} {:?} {others:?}", a.routing_indicator.value(), a.point_code, a.ssn)
}

fn typed(a: &navrost::Address) -> String {
    let title = a.global_title.map(|t| (t.gti, t.translation_type, t.numbering_plan, t.nature_of_address, t.digits));
    let others: Vec<(u16, &[u8])> = a.others.clone().map(|o| (o.tag, o.value)).collect();
    let include = (a.include_gt, a.include_pc, a.include_ssn);
    format!("{} {include:?} {title:?} {:?} {:?} {others:?}", a.routing_indicator, a.point_code, a.ssn)
}

/// Whether a typed reading is that of the Rust.
fn same_reading(input: &[u8]) -> bool {
    let read = numbers(navrost::read_vec(input));
    let (reading, message) = match (&read, expected(account(input).and_then(|_| read_message(input)))) {
        (Ok(reading), Ok(message)) => (reading, message),
        (Err(a), Err(b)) => return *a == b,
        _ => return false,
    };
    let account = reading.account();
    if (account.message_class(), account.message_type()) != message.message_type.class_and_type() {
        return false;
    }
    account.len() == message.parameters.len()
        && account.parameters().count() == message.parameters.len()
        && account.parameters().zip(&message.parameters).all(|(a, b)| {
            let address = is_address(b.tag).then(|| shown(&SuaAddress::decode(&b.value).expect("the account has it")));
            a.tag == b.tag && a.value == b.value && a.address.as_ref().map(typed) == address
        })
}

/// Whether the forms, their lengths and messages written again are those of the Rust.
fn same_writing(input: &[u8], class: u8, msg_type: u8, list: &[(u16, Vec<u8>)]) -> bool {
    let parameters: Vec<(u16, &[u8])> = list.iter().map(|(tag, value)| (*tag, &**value)).collect();
    let mut flat = Vec::new();
    for (tag, value) in &parameters {
        navrost::push_parameter(&mut flat, *tag, value).expect("it is short");
    }
    numbers(navrost::settle_vec(input)) == expected(form(input))
        && numbers(navrost::settled_length(input)) == expected(form(input).map(|f| f.len()))
        && numbers(navrost::encode_vec(class, msg_type, &parameters)) == expected(encode_flat(class, msg_type, &flat))
}

/// Compares so many random messages; true where none differs.
pub fn compare(count: u64, seed: u64) -> bool {
    let mut differences = 0;
    for i in 0..count {
        let mut r = Random::nth(Group::Typed, seed, i);
        let mut input = if r.once_in(10_000) { messages::large(&mut r) } else { messages::message(&mut r) };
        if r.once_in(2) {
            input = counters::copy(&mut r, &input).unwrap_or(input);
        }
        let (class, msg_type) = messages::any_pair(&mut r);
        let list = messages::list(&mut r, true, true);
        if !same_reading(&input) || !same_writing(&input, class, msg_type, &list) {
            differences += 1;
            let octets: String = input.iter().take(400).map(|b| format!("{b:02x}")).collect();
            println!("bindings: message {i} of seed {seed}: {octets}, or the list {class} {msg_type} {list:?}");
        }
    }
    println!("bindings: {count} messages, {differences} differences");
    differences == 0
}
