//! Member lists and rows that break one rule, each refused as 16 whatever the message is, and those that just keep them.

use super::plain::placed;
use super::{made, Check, List, Prefix, Rows, MOST_MESSAGES, MOST_VALUE};
use crate::random::Random;

/// What a call is lent beside the message.
struct Lent {
    prefixes: Vec<Prefix>,
    list: List,
    rows: Rows,
}

impl Lent {
    /// A list, and rows that can gain a message.
    fn of(r: &mut Random, prefixes: Vec<Prefix>) -> Lent {
        let messages: Vec<u64> = (0..prefixes.len() + 2).map(|_| r.below(1_000) as u64).collect();
        let octets = messages.iter().map(|n| r.next() % (MOST_VALUE * n + 1)).collect();
        Lent { list: List::of(&prefixes), prefixes, rows: Rows { messages, octets } }
    }

    /// The list with other prefixes, that need not keep the rules, and rows for them.
    fn relist(&mut self, r: &mut Random, prefixes: Vec<Prefix>) {
        *self = Lent::of(r, prefixes);
    }

    fn replace_character(&mut self, r: &mut Random, character: u8) {
        let at = r.below(self.list.digits.len());
        self.list.digits[at] = character;
    }

    /// So many places more than members.
    fn places(&mut self, messages: usize, octets: usize) {
        self.rows.messages.resize(self.prefixes.len() + messages, 0);
        self.rows.octets.resize(self.prefixes.len() + octets, 0);
    }

    /// Rows of 0 but for these messages.
    fn holding(&mut self, messages: &[(usize, u64)]) {
        self.rows = Rows::none(self.rows.messages.len());
        for (row, n) in messages {
            self.rows.messages[*row] = *n;
        }
    }

    /// So many messages, spread over all rows.
    fn spread(&mut self, total: u64) {
        let count = self.rows.messages.len();
        let each = total / count as u64;
        self.rows = Rows { messages: vec![each; count], octets: vec![0; count] };
        self.rows.messages[count - 1] += total % count as u64;
    }

    fn any_row(&self, r: &mut Random) -> usize {
        r.below(self.rows.messages.len())
    }
}

type Change = fn(&mut Random, &mut Lent);

/// A change of a list of 1 to 63 members that breaks the rule of its name.
const BROKEN: [(&str, Change); 36] = [
    ("no members", |r, l| l.relist(r, vec![])),
    ("65 members", |r, l| {
        let prefixes = made::prefixes(r, 65);
        l.relist(r, prefixes)
    }),
    ("257 to 319 members", |r, l| {
        let count = 257 + r.below(63);
        let prefixes = made::prefixes(r, count);
        l.relist(r, prefixes)
    }),
    ("a length of 0", |r, l| {
        let mut prefixes = l.prefixes.clone();
        prefixes.insert(r.below(prefixes.len() + 1), vec![]);
        l.relist(r, prefixes)
    }),
    ("a length of 16", |r, l| {
        let mut prefixes = l.prefixes.clone();
        let at = r.below(prefixes.len());
        prefixes[at].resize(16, b'7');
        l.relist(r, prefixes)
    }),
    ("a length of 255", |r, l| {
        let mut prefixes = l.prefixes.clone();
        let at = r.below(prefixes.len());
        prefixes[at].resize(255, b'7');
        l.relist(r, prefixes)
    }),
    ("no characters", |_, l| l.list.digits.clear()),
    ("a character more", |_, l| l.list.digits.push(b'5')),
    ("a character less", |_, l| l.list.digits.truncate(l.list.digits.len() - 1)),
    ("256 characters more", |_, l| l.list.digits.extend([b'5'; 256])),
    ("a character /", |r, l| l.replace_character(r, b'/')),
    ("a character :", |r, l| l.replace_character(r, b':')),
    ("a character a", |r, l| l.replace_character(r, b'a')),
    ("a character that is no digit", |r, l| {
        let character = (b'9' as usize + 1 + r.below(246)) as u8;
        l.replace_character(r, character)
    }),
    ("a prefix twice, side by side", |r, l| {
        let mut prefixes = l.prefixes.clone();
        let at = r.below(prefixes.len());
        prefixes.insert(at, prefixes[at].clone());
        l.relist(r, prefixes)
    }),
    ("a prefix twice, first and last", |r, l| {
        let mut prefixes = l.prefixes.clone();
        prefixes.push(prefixes[0].clone());
        l.relist(r, prefixes)
    }),
    ("a place of messages less", |_, l| l.places(1, 2)),
    ("a place of messages more", |_, l| l.places(3, 2)),
    ("a place of octets less", |_, l| l.places(2, 1)),
    ("a place of octets more", |_, l| l.places(2, 3)),
    ("a row less", |_, l| l.places(1, 1)),
    ("a row more", |_, l| l.places(3, 3)),
    ("as many rows as members", |_, l| l.places(0, 0)),
    ("no rows", |_, l| l.rows = Rows::none(0)),
    ("4,294,967,295 messages in a row", |r, l| l.holding(&[(l.any_row(r), MOST_MESSAGES)])),
    ("4,294,967,296 messages in a row", |r, l| l.holding(&[(l.any_row(r), MOST_MESSAGES + 1)])),
    ("4,294,967,295 messages in all rows", |_, l| l.spread(MOST_MESSAGES)),
    ("2^64 - 1 messages in a row", |r, l| l.holding(&[(l.any_row(r), u64::MAX)])),
    ("2^64 messages in two rows", |r, l| {
        let (row, n) = (1 + r.below(l.prefixes.len() + 1), r.next() | 1 << 63);
        l.holding(&[(0, n), (row, n.wrapping_neg())])
    }),
    ("2^64 and some messages in all rows", |r, l| {
        l.spread(u64::MAX);
        let some = 1 + r.below(1_000) as u64;
        l.rows.messages[0] += some;
    }),
    ("an octet in a row without messages", |r, l| {
        let row = l.any_row(r);
        (l.rows.messages[row], l.rows.octets[row]) = (0, 1);
    }),
    ("an octet too many in a row", |r, l| {
        let row = l.any_row(r);
        l.rows.octets[row] = MOST_VALUE * l.rows.messages[row] + 1;
    }),
    ("an octet too many in the last row", |_, l| {
        let row = l.prefixes.len() + 1;
        l.rows.octets[row] = MOST_VALUE * l.rows.messages[row] + 1;
    }),
    ("an octet too many in a row of 4,294,967,294", |r, l| {
        let row = l.any_row(r);
        l.holding(&[(row, MOST_MESSAGES - 1)]);
        l.rows.octets[row] = MOST_VALUE * (MOST_MESSAGES - 1) + 1;
    }),
    ("2^64 - 1 octets in a row", |r, l| {
        let row = l.any_row(r);
        l.rows.octets[row] = u64::MAX;
    }),
    ("no members and no rows", |_, l| (l.list, l.rows) = (List::of(&[]), Rows::none(0))),
];

/// A change that keeps every rule.
const KEPT: [(&str, Change); 9] = [
    ("kept: nothing changed", |_, _| ()),
    ("kept: 1 member", |r, l| l.relist(r, vec![vec![b'0' + 4]])),
    ("kept: 64 members", |r, l| {
        let prefixes = made::prefixes(r, 64);
        l.relist(r, prefixes)
    }),
    ("kept: 64 members of 15 digits", |r, l| {
        let prefixes = (0..64).map(|n| format!("{:015}", n * 999_999_999_999_u64 / 63).into_bytes()).collect();
        l.relist(r, prefixes)
    }),
    ("kept: prefixes of one another", |r, l| {
        let prefixes = (1..16).flat_map(|n| [vec![b'0'; n], vec![b'9'; n]]).collect();
        l.relist(r, prefixes)
    }),
    ("kept: rows of 0", |_, l| l.holding(&[])),
    ("kept: 4,294,967,294 messages in a row", |r, l| l.holding(&[(l.any_row(r), MOST_MESSAGES - 1)])),
    ("kept: 4,294,967,294 messages in all rows", |_, l| l.spread(MOST_MESSAGES - 1)),
    ("kept: all octets that the rows can hold", |r, l| {
        l.spread(r.next() % MOST_MESSAGES);
        l.rows.octets = l.rows.messages.iter().map(|n| MOST_VALUE * n).collect();
    }),
];

/// The names of all changes.
pub fn names() -> Vec<&'static str> {
    BROKEN.iter().chain(&KEPT).map(|(name, _)| *name).collect()
}

/// Messages: one for a member, one unplaced, refused ones that are empty and too long, and any.
fn messages(r: &mut Random, prefixes: &[Prefix], too_long: &[u8]) -> Vec<Vec<u8>> {
    let mut list = vec![vec![], too_long.to_vec(), vec![1, 0, 3, 1, 0, 0, 0, 8]];
    list.extend((0..4).map(|_| made::message(r, prefixes)));
    list.push(loop {
        let message = made::message(r, prefixes);
        if placed(prefixes, &message).0 < prefixes.len() {
            break message;
        }
    });
    list
}

/// Every change, many times over.
pub fn compare(check: &mut Check, r: &mut Random) {
    let too_long = vec![0x41; 1_048_577];
    for _ in 0..40 {
        for (broken, (name, change)) in BROKEN.map(|c| (true, c)).into_iter().chain(KEPT.map(|c| (false, c))) {
            let members = 1 + r.below(63);
            let prefixes = made::prefixes(r, members);
            let mut lent = Lent::of(r, prefixes.clone());
            change(r, &mut lent);
            for input in messages(r, if broken { &prefixes } else { &lent.prefixes }, &too_long) {
                let Lent { prefixes, list, rows } = &lent;
                let mut after = rows.clone();
                let row = (!broken).then(|| {
                    let (row, octets) = placed(prefixes, &input);
                    after.add(row, octets);
                    row
                });
                if check.answers(r, name, list, &input, rows, (row, &after)) {
                    check.see(name);
                }
                let mut typed = rows.clone();
                let members = navrost::Members { digits: &list.digits, lengths: &list.lengths };
                let answer = navrost::tally(members, &input, &mut typed.messages, &mut typed.octets);
                let right = answer == row.ok_or(navrost::Refusal::InvalidTally) && typed == after;
                check.holds(right, || format!("bindings/rust, {name}: {list:?} {rows:?}: {answer:?} {typed:?}"));
            }
        }
    }
}
