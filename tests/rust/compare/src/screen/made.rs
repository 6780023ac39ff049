//! Random tables for `screen`: the seven tags often and more than once, each value good or not, each column broken or not.

use crate::calls::{Call, SCREENED};
use crate::generate::{fit_screen, laid_out, lists, wanted};
use crate::messages;
use crate::random::Random;

/// The records of a table, at most.
pub const MOST: usize = 64;

/// A call of `screen`.
pub fn call(r: &mut Random) -> Call {
    let list = records(r);
    let (mut columns, values) = laid_out(r, &list);
    move_some(r, &mut columns, values.len());
    let count = spoil(r, &mut columns, values.len());
    let numbers = [vec![count, 0, 0, 0, 0, 0, 0], lists(columns)].concat();
    let mut call = Call { name: "screen".into(), numbers, octets: vec![values], room: None };
    fit_screen(r, &mut call);
    call
}

fn records(r: &mut Random) -> Vec<(u16, Vec<u8>)> {
    let count = match r.below(16) {
        0 => MOST,
        1 => r.below(MOST),
        2 | 3 => r.below(4),
        _ => r.below(20),
    };
    let mut list: Vec<(u16, Vec<u8>)> = (0..count)
        .map(|_| {
            let name = SCREENED[r.pick(&[0, 1, 2, 3, 4, 5, 5, 6, 6])];
            let tag = match r.below(10) {
                0 => messages::tag(r),
                1 => wanted(name) ^ 1 << r.below(16),
                _ => wanted(name),
            };
            (tag, value(r, tag))
        })
        .collect();
    if r.once_in(100) {
        put_longest(r, &mut list);
    }
    list
}

/// Puts an address of 1,048,576 octets, or of one more, into a list: 12. Mostly a good other one stands before it.
fn put_longest(r: &mut Random, list: &mut Vec<(u16, Vec<u8>)>) {
    let tag = r.pick(&[0x0102, 0x0103]);
    list.truncate(MOST - 2);
    let at = if r.once_in(4) { r.below(list.len() + 1) } else { 0 };
    let value = longest(r);
    list.insert(at, (tag, value));
    if !r.once_in(4) {
        list.insert(0, (0x0205 - tag, vec![0, 2, 0, 0]));
    }
}

fn value(r: &mut Random, tag: u16) -> Vec<u8> {
    match (tag, r.below(8)) {
        (0x0102 | 0x0103, 0) => many_others(r),
        (0x0102 | 0x0103, 1 | 2) => messages::address(r, true, true),
        (0x0102 | 0x0103, 3) => messages::two_titles(r, true),
        (0x0102 | 0x0103, _) => messages::address(r, true, false),
        (_, choice) => {
            let n = match choice {
                0 => r.below(4),
                1 => 4 + r.below(6),
                _ => 4,
            };
            r.octets(n)
        }
    }
}

/// An address with others that are more, now and then, than any table has room for.
fn many_others(r: &mut Random) -> Vec<u8> {
    let mut value = messages::address(r, false, false);
    for _ in 0..r.below(MOST + 8) {
        let n = r.below(3);
        let octets = r.octets(n);
        value.extend(messages::parameter(r, 0x8005, &octets, true));
    }
    value
}

/// An address of 1,048,576 octets, or of one more.
fn longest(r: &mut Random) -> Vec<u8> {
    let mut value = vec![0, 2, 0, 0];
    for _ in 0..15 {
        value.extend(messages::parameter(r, 0x8005, &[0; 65_531], false));
    }
    value.extend(messages::parameter(r, 0x8005, &[0; 65_528], false));
    value.extend(if r.once_in(4) { vec![] } else { vec![0] });
    value
}

/// Moves some records to anywhere in the values, over others.
pub fn move_some(r: &mut Random, columns: &mut [Vec<u64>; 3], values: usize) {
    for row in 0..columns[0].len() {
        if r.once_in(20) {
            let start = r.below(values + 1);
            columns[1][row] = start as u64;
            columns[2][row] = r.below((values - start).min(40) + 1) as u64;
        }
    }
}

/// Breaks the columns, or not; the count.
pub fn spoil(r: &mut Random, columns: &mut [Vec<u64>; 3], values: usize) -> u64 {
    let rows = columns[0].len();
    match r.below(16) {
        0 => {
            let short = rows.saturating_sub(1 + r.below(3));
            columns[r.below(3)].truncate(short);
        }
        1 => return [rows as u64 + 1 + r.below(3) as u64, u64::MAX, r.next()][r.below(3)],
        2 => {
            let more = r.below(MOST - rows + 1);
            columns[r.below(3)].extend(vec![7; more]);
        }
        3 if rows > 0 => outside(r, columns, values, 0, 1),
        4 if rows > 0 => outside(r, columns, values, 0, 2),
        5 | 6 if rows > 0 => {
            let count = r.below(rows);
            if r.once_in(2) {
                let which = 1 + r.below(2);
                outside(r, columns, values, count, which);
            }
            return count as u64;
        }
        _ => {}
    }
    rows as u64
}

/// Makes the start (1) or the length (2) of a record, at a row or behind it, reach outside the values.
fn outside(r: &mut Random, columns: &mut [Vec<u64>; 3], values: usize, from: usize, which: usize) {
    let rows = columns[0].len();
    let row = match r.below(4) {
        0 => from,
        1 => rows - 1,
        _ => from + r.below(rows - from),
    };
    let (start, length) = (columns[1][row], columns[2][row]);
    let over = values as u64 + 1 - if which == 2 { start } else { 0 };
    let around = 0u64.wrapping_sub(if which == 2 { start } else { length });
    columns[which][row] = match r.below(4) {
        0 => u64::MAX,
        1 => r.next() | 1 << 63,
        2 if around > over => around,
        _ => over,
    };
}
