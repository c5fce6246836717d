//! Random and structured sheets: rings, cliques, chains, stars, rules of every kind, triples, narrow and wide fields.

use crate::gadgets::{apart, far, joined_by_triples, with_a_field_outside};
use crate::random_triples::with_triples;
use crate::smaller::Smaller;
use crate::Random;
use solver::{Rule, Sheet, ENCODER_TOLERANCE, LARGEST_SETTING};

/// How large a sheet may be.
#[derive(Clone, Copy, Debug, PartialEq, Eq)]
pub enum Size {
    /// A few fields and settings.
    Small,
    /// Up to 24 fields of few settings, or few fields of up to 24 settings.
    Long,
    /// Up to 24 fields of up to 24 settings.
    Large,
    /// 24 fields of 24 settings, with a rule for almost every pair of fields.
    Full,
}

/// How many settings there can be: 0 to the largest.
const RANGE: usize = LARGEST_SETTING as usize + 1;

/// Where a word of 16 bits ends, which is inside the range.
const WORD: usize = 1 << 16;

/// What a sheet is made from.
struct Frame {
    fields: usize,
    settings: usize,
    reach: u32,
    /// The fields that have a rule, rising.
    pairs: Vec<(usize, usize)>,
}

/// A sheet of this size.
pub fn sheet(random: &mut Random, size: Size) -> Sheet {
    match (size, random.below(8)) {
        (Size::Full, _) | (Size::Small | Size::Large, 0..=3) => return hard(random, size),
        (Size::Small, 4) if random.one_in(2) => {
            let [first, second] = [(); 2].map(|()| small_part(random));
            return apart(random, first, second);
        }
        (Size::Small, 4) => return far(random, &[5, 5, 7, 9, 11]),
        (Size::Long, 4) => return far(random, &[13, 15, 17, 19, 21]),
        (Size::Small, 5) => return with_a_field_outside(random, &[1, 1, 2]),
        (Size::Small, 6) if random.one_in(4) => return joined_by_triples(random, &[1, 2, 3]),
        (Size::Long, 5) if random.one_in(2) => return with_a_field_outside(random, &[2, 3, 5, 8, 11]),
        (Size::Long, 6) if random.one_in(4) => return joined_by_triples(random, &[3, 5, 8, 11]),
        _ => (),
    }
    let (fields, settings) = match size {
        Size::Small => (random.from(1, 6), random.from(1, 5)),
        Size::Long if random.one_in(2) => (random.from(6, 24), random.from(1, 3)),
        Size::Long => (random.from(1, 5), random.from(6, 24)),
        Size::Large | Size::Full => (random.from(6, 24), random.from(4, 24)),
    };
    let reach = if size == Size::Long && random.one_in(2) { random.from(1, 24) as u32 } else { reach(random) };
    let frame = Frame { fields, settings, reach, pairs: pairs(random, fields) };
    of_any_sort(random, frame)
}

/// Another sheet: often one that differs from this one in little, its reach, a rule, a triple, a setting or its last field.
pub fn another(random: &mut Random, sheet: &Sheet) -> Sheet {
    let mut other = sheet.clone();
    let field = random.below(sheet.fields());
    match random.below(6) {
        0 => other.reach = reach(random),
        1 if !other.rules.is_empty() => drop(other.rules.remove(random.below(sheet.rules.len()))),
        2 => drop(other.triples.pop()),
        3 if other.settings[field].len() > 1 => other.remove_setting(field, random.below(sheet.settings[field].len())),
        4 if other.fields() > 1 => other.remove_field(sheet.fields() - 1),
        _ => return self::sheet(random, Size::Small),
    }
    other
}

/// A sheet of up to four fields, to be a part of one.
fn small_part(random: &mut Random) -> Sheet {
    let (fields, settings) = (random.from(1, 4), random.from(1, 4));
    let frame = Frame { fields, settings, reach: reach(random), pairs: pairs(random, fields) };
    of_any_sort(random, frame)
}

fn of_any_sort(random: &mut Random, frame: Frame) -> Sheet {
    let sheet = match random.below(6) {
        0 => unequal(random, frame),
        1 | 2 => steps(random, frame),
        3 => masked(random, frame),
        _ => mixed(random, frame),
    };
    with_triples(random, sheet)
}

/// A sheet where settings that have support often fail their tests, and removals lead to more.
fn hard(random: &mut Random, size: Size) -> Sheet {
    let (fields, settings, share) = match size {
        Size::Large => (random.from(8, 24), random.from(3, 12), random.pick(&[2, 3, 5])),
        Size::Full => (24, 24, random.pick(&[8, 10, 10])),
        _ => (random.from(5, 9), random.from(3, 4), random.pick(&[4, 7, 10])),
    };
    let pairs = every(fields).filter(|_| random.below(10) < share).collect();
    let frame = Frame { fields, settings, reach: random.pick(&[1, 2, 2, 3, 24]), pairs };
    let sheet = if random.one_in(3) { unequal(random, frame) } else { masked(random, frame) };
    with_triples(random, sheet)
}

fn reach(random: &mut Random) -> u32 {
    match random.below(8) {
        0..=2 => 24,
        3 => 1,
        4 | 5 => 2,
        6 => random.from(3, 5) as u32,
        _ => random.from(1, 24) as u32,
    }
}

/// Every pair of n fields, rising.
pub fn every(n: usize) -> impl Iterator<Item = (usize, usize)> {
    (0..n).flat_map(move |i| (i + 1..n).map(move |j| (i, j)))
}

/// The rules of a ring of n fields.
pub fn ring(n: usize) -> Vec<(usize, usize)> {
    every(n).filter(|&(i, j)| j == i + 1 || (i, j) == (0, n - 1)).collect()
}

/// Which fields have a rule: none, a chain, a ring, a star, a clique, a tree or any pairs, under any names.
fn pairs(random: &mut Random, n: usize) -> Vec<(usize, usize)> {
    let mut pairs: Vec<(usize, usize)> = match random.below(16) {
        0 => (1..n).map(|j| (j - 1, j)).collect(),
        1 | 2 => ring(n),
        3 => (1..n).map(|j| (0, j)).collect(),
        4 | 5 if n <= 8 => every(n).collect(),
        6 => (1..n).map(|j| (random.below(j), j)).collect(),
        7 if random.one_in(4) => vec![],
        _ => {
            let share = if n <= 8 { random.from(2, 9) } else { random.from(1, 4) };
            every(n).filter(|_| random.below(10) < share).collect()
        }
    };
    let names = if random.one_in(4) { random.order(n) } else { (0..n as u8).collect() };
    for pair in &mut pairs {
        let (a, b) = (usize::from(names[pair.0]), usize::from(names[pair.1]));
        *pair = (a.min(b), a.max(b));
    }
    pairs.sort_unstable();
    pairs
}

/// Settings one apart, some of them missing, and rules that ask for different ones, a few for equal ones or for a distance.
fn unequal(random: &mut Random, frame: Frame) -> Sheet {
    let count = frame.settings.max(2);
    let first = random.pick(&[0, 1, WORD - count / 2, RANGE - count]) as u32;
    let missing = random.pick(&[4, 1000]);
    let mut settings: Vec<Vec<u32>> = vec![];
    for _ in 0..frame.fields {
        let mut own: Vec<u32> = (first..first + count as u32).filter(|_| !random.one_in(missing)).collect();
        if own.is_empty() {
            own.push(first);
        }
        settings.push(own);
    }
    let rule = |&(i, j): &(usize, usize)| {
        let (kind, c) = match random.below(16) {
            0 => (4, 0),
            1 => (5, random.below(count + 2) as u32),
            _ => (3, 1),
        };
        Rule { i, j, kind, numbers: vec![c] }
    };
    Sheet { settings, reach: frame.reach, rules: frame.pairs.iter().map(rule).collect(), triples: vec![] }
}

/// Rules that ask for a step up or down, of a few micrometres or of half the range.
fn steps(random: &mut Random, frame: Frame) -> Sheet {
    let wide = random.one_in(2);
    let span = if wide { random.pick(&[WORD, RANGE, RANGE]) } else { 12 };
    let settings: Vec<Vec<u32>> = (0..frame.fields).map(|_| rising(random, frame.settings, span)).collect();
    let mut rules = vec![];
    for (i, j) in frame.pairs {
        let kind = random.pick(if wide { &[1, 2] } else { &[1, 2, 2, 2, 3, 4] });
        let (above, below) = if kind == 1 { (i, j) } else { (j, i) };
        let most = settings[above].iter().max().unwrap().saturating_sub(settings[below][0]);
        let c = match kind {
            _ if wide => random.below(most as usize + 1),
            4 => random.from(1, 6),
            _ => random.below(4),
        };
        rules.push(Rule { i, j, kind, numbers: vec![c as u32] });
    }
    Sheet { settings, reach: frame.reach, rules, triples: vec![] }
}

/// Rules of kind 0. The share of allowed pairs is a little above the one at which a random sheet has about one complete set-up.
fn masked(random: &mut Random, frame: Frame) -> Sheet {
    let Frame { fields, settings, reach, pairs } = frame;
    let critical = (settings as f64).powf(-(fields as f64) / pairs.len().max(1) as f64);
    let allowed = critical + (1.0 - critical) * random.from(10, 60) as f64 / 100.0;
    let settings: Vec<Vec<u32>> = (0..fields).map(|_| rising(random, settings, 200)).collect();
    let mut mask = |count: usize| (0..count).filter(|_| (random.below(1000) as f64) < 1000.0 * allowed).map(|u| 1 << u).sum();
    let mut rules = vec![];
    for (i, j) in pairs {
        let numbers = settings[i].iter().map(|_| mask(settings[j].len())).collect();
        rules.push(Rule { i, j, kind: 0, numbers });
    }
    Sheet { settings, reach, rules, triples: vec![] }
}

/// Rules of every kind, over a narrow or a wide span.
fn mixed(random: &mut Random, frame: Frame) -> Sheet {
    let span = random.pick(&[8, 30, 400, WORD, RANGE]);
    let settings: Vec<Vec<u32>> = (0..frame.fields).map(|_| rising(random, frame.settings, span)).collect();
    let mut rules = vec![];
    for (i, j) in frame.pairs {
        let kind = random.below(6) as u32;
        let numbers = match kind {
            0 => settings[i].iter().map(|_| (random.word() | random.word()) as u32 % (1 << settings[j].len())).collect(),
            4 => vec![random.from(span / 4, span - 1) as u32],
            5 if random.one_in(2) => vec![near_distance(random, &settings[i], &settings[j])],
            _ if random.one_in(6) => vec![edge_amount(random)],
            _ => vec![random.below(span / 6 + 1) as u32],
        };
        rules.push(Rule { i, j, kind, numbers });
    }
    Sheet { settings, reach: frame.reach, rules, triples: vec![] }
}

/// A number c that differs from the distance of two settings by at most one more than kind 5 allows.
fn near_distance(random: &mut Random, first: &[u32], second: &[u32]) -> u32 {
    let most = ENCODER_TOLERANCE + 1;
    let distance = random.pick(first).abs_diff(random.pick(second));
    (distance + random.below(2 * most as usize + 1) as u32).saturating_sub(most).min(LARGEST_SETTING)
}

/// A number c near an end of the range, near where a word of 16 bits ends, or a large one between.
fn edge_amount(random: &mut Random) -> u32 {
    let end = random.pick(&[RANGE, RANGE, WORD + 2, 40_000, 1]);
    (end - random.from(1, end.min(3))) as u32
}

/// Up to d settings below the span, around the end of a word of 16 bits or at the top of the range, strictly rising.
fn rising(random: &mut Random, d: usize, span: usize) -> Vec<u32> {
    let d = if random.one_in(5) { random.from(1, d) } else { d };
    let span = span.max(2 * d);
    let first = match random.below(12) {
        0 => RANGE - span,
        1 => WORD.saturating_sub(span / 2),
        _ => 0,
    };
    let mut settings: Vec<u32> = vec![];
    while settings.len() < d {
        let setting = (first + random.below(span)) as u32;
        if !settings.contains(&setting) {
            settings.push(setting);
        }
    }
    settings.sort_unstable();
    settings
}
