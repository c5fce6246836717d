//! Faults in what rules allow.

use super::page::Page;
use super::Fault;
use super::How::Offers;
use solver::{Set, ENCODER_TOLERANCE};

pub static ROWS: &[Fault] = &[
    Fault {
        name: "wraps_at_65536",
        promise: "3.1",
        says: "q + c is compared modulo 65,536.",
        how: Offers(|page| misread(page, |pair| wraps(pair, 65_536))),
    },
    Fault {
        name: "wraps_at_1000000",
        promise: "3.1",
        says: "q + c is compared modulo 1,000,000.",
        how: Offers(|page| misread(page, |pair| wraps(pair, 1_000_000))),
    },
    Fault {
        name: "tolerance_0",
        promise: "3.2",
        says: "Kind 5 allows distances that differ from c by at most 0.",
        how: Offers(|page| misread(page, |pair| tolerates(pair, 0))),
    },
    Fault {
        name: "tolerance_1",
        promise: "3.2",
        says: "Kind 5 allows distances that differ from c by at most 1.",
        how: Offers(|page| misread(page, |pair| tolerates(pair, 1))),
    },
    Fault {
        name: "tolerance_3",
        promise: "3.2",
        says: "Kind 5 allows distances that differ from c by at most 3.",
        how: Offers(|page| misread(page, |pair| tolerates(pair, 3))),
    },
    Fault {
        name: "only_above",
        promise: "3.2",
        says: "Kind 5 allows no distance below c.",
        how: Offers(|page| misread(page, |pair| pair.of_kind(5, (pair.c..=pair.c + ENCODER_TOLERANCE).contains(&pair.distance())))),
    },
    Fault {
        name: "stops_at_zero",
        promise: "3.2",
        says: "Kind 5 allows every distance below c: c is subtracted from it, and the difference stops at 0.",
        how: Offers(|page| misread(page, |pair| pair.of_kind(5, pair.distance().saturating_sub(pair.c) <= ENCODER_TOLERANCE))),
    },
    Fault {
        name: "kind_2_as_1",
        promise: "3.3",
        says: "Kind 2 means what kind 1 means.",
        how: Offers(|page| misread(page, |pair| pair.of_kind(2, pair.p >= pair.q + pair.c))),
    },
];

/// A pair of settings under a rule with a number c.
#[derive(Clone, Copy)]
struct Pair {
    kind: u32,
    c: u32,
    p: u32,
    q: u32,
}

impl Pair {
    fn distance(self) -> u32 {
        self.p.abs_diff(self.q)
    }

    /// Whether it is allowed, where the rule has this kind.
    fn of_kind(self, kind: u32, allowed: bool) -> Option<bool> {
        (self.kind == kind).then_some(allowed)
    }
}

fn wraps(pair: Pair, modulus: u32) -> Option<bool> {
    let Pair { c, p, q, .. } = pair;
    let second = pair.of_kind(2, q >= (p + c) % modulus);
    pair.of_kind(1, p >= (q + c) % modulus).or(second)
}

fn tolerates(pair: Pair, most: u32) -> Option<bool> {
    pair.of_kind(5, pair.distance().abs_diff(pair.c) <= most)
}

/// The offers where some kinds are misread; those for which nothing is said are read as they should be.
fn misread(page: &Page, allows: impl Fn(Pair) -> Option<bool>) -> Option<Set> {
    let mut sheet = page.sheet.clone();
    for rule in &mut sheet.rules {
        let (kind, c) = (rule.kind, rule.numbers[0]);
        let (first, second) = (&sheet.settings[rule.i], &sheet.settings[rule.j]);
        let bit = |p, u: usize| allows(Pair { kind, c, p, q: second[u] }).map(|allowed| u32::from(allowed) << u);
        let rows: Option<Vec<u32>> = first.iter().map(|&p| (0..second.len()).map(|u| bit(p, u)).sum()).collect();
        if let Some(masks) = rows {
            rule.kind = 0;
            rule.numbers = masks;
        }
    }
    page.with(sheet).offers(page.selected())
}
