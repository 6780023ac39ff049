//! Random party addresses of SCCP: those that convert, those that break one condition, and any.

use super::made::{digits, few, up_to};
use super::plain::packed;
use crate::oracle::MOST_OCTETS;
use crate::random::Random;

/// A party address by its fields.
struct Party {
    reserved: u8,
    routing: u8,
    indicator: u8,
    code: Option<[u8; 2]>,
    ssn: Option<u8>,
    title: Option<Title>,
    behind: Vec<u8>,
}

struct Title {
    translation_type: u8,
    plan: u8,
    scheme: u8,
    nature: u8,
    digits: String,
    filler: u8,
}

impl Title {
    fn of(r: &mut Random, count: usize) -> Title {
        let (plan, nature) = (up_to(r, 15) as u8, up_to(r, 127) as u8);
        let scheme = if count % 2 == 1 { 1 } else { 2 };
        Title { translation_type: r.octet(), plan, scheme, nature, digits: digits(r, count), filler: 0 }
    }
}

impl Party {
    /// One that converts.
    fn any(r: &mut Random) -> Party {
        let count = few(r);
        let title = (!r.once_in(3)).then(|| Title::of(r, count));
        Party {
            reserved: 0,
            routing: r.below(2) as u8,
            indicator: if title.is_some() { 4 } else { 0 },
            code: r.once_in(2).then(|| [r.octet(), up_to(r, 63) as u8]),
            ssn: (!r.once_in(3)).then(|| r.octet()),
            title,
            behind: Vec::new(),
        }
    }

    /// The title, of so many digits where there is none.
    fn titled(&mut self, r: &mut Random, count: usize) -> &mut Title {
        self.indicator = 4;
        self.title.get_or_insert_with(|| Title::of(r, count))
    }

    fn put(&self) -> Vec<u8> {
        let (code, ssn) = (u8::from(self.code.is_some()), u8::from(self.ssn.is_some()));
        let mut out = vec![self.reserved * 128 + self.routing * 64 + self.indicator * 4 + ssn * 2 + code];
        out.extend(self.code.into_iter().flatten());
        out.extend(self.ssn);
        if let Some(t) = &self.title {
            out.extend([t.translation_type, t.plan * 16 + t.scheme, t.nature]);
            out.extend(packed(&t.digits, t.filler));
        }
        out.extend(&self.behind);
        out
    }
}

/// Changes of a party address that converts, each so that it does not, by one condition, or so that it just does.
const DAMAGES: [fn(&mut Random, &mut Party); 14] = [
    |_, p| p.reserved = 1,
    |r, p| p.indicator = r.pick(&[1, 2, 3, 5, 6, 7, 8, 9, 10, 11, 12, 13, 14, 15]),
    |r, p| p.code = Some([r.octet(), 64 + r.below(192) as u8]),
    |r, p| p.titled(r, 12).nature |= 128,
    |r, p| p.titled(r, 12).scheme = r.pick(&[0, 3, 4, 5, 6, 7, 8, 9, 10, 11, 12, 13, 14, 15]),
    |r, p| p.titled(r, 12).scheme = 1 + r.below(2) as u8,
    |r, p| {
        let count = 1 + 2 * r.below(128);
        let mut title = Title::of(r, count);
        title.filler = 1 + r.below(15) as u8;
        (p.title, p.indicator) = (Some(title), 4);
    },
    |r, p| {
        let title = p.titled(r, 12);
        let at = r.below(title.digits.len().max(1));
        title.digits.replace_range(at..(at + 1).min(title.digits.len()), "?");
        title.scheme = 2 - title.digits.len() as u8 % 2;
    },
    |r, p| {
        let title = p.titled(r, 0);
        title.digits.clear();
        title.scheme = 1;
    },
    |r, p| (p.title, p.indicator) = (Some(Title::of(r, 256)), 4),
    |r, p| {
        let count = 257 + r.below(300);
        (p.title, p.indicator) = (Some(Title::of(r, count)), 4);
    },
    |r, p| {
        let n = 1 + r.below(4);
        p.behind = r.octets(n);
    },
    |r, p| {
        let n = 1 + r.below(4);
        (p.title, p.indicator, p.behind) = (None, 0, r.octets(n));
    },
    |_, p| (p.title, p.indicator) = (None, 4),
];

/// Octets that are a party address, or nearly.
pub fn party(r: &mut Random) -> Vec<u8> {
    if r.once_in(5_000) {
        let n = MOST_OCTETS + r.below(2);
        return vec![0x12; n];
    }
    if r.once_in(12) {
        let n = r.below(12);
        let mut out = r.octets(n);
        if r.once_in(2) && n > 0 {
            out[0] &= 0b0101_0011;
        }
        return out;
    }
    let mut p = Party::any(r);
    if r.once_in(2) {
        r.pick(&DAMAGES)(r, &mut p);
    }
    if r.once_in(12) {
        r.pick(&DAMAGES)(r, &mut p);
    }
    let mut out = p.put();
    match r.below(24) {
        0 => out.truncate(r.below(out.len())),
        1 => out.truncate(r.below(8)),
        2 => {
            let at = r.below(out.len());
            out[at] = r.octet();
        }
        _ => {}
    }
    out
}
