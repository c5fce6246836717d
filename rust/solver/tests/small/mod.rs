//! Small random sheets.

use random::Random;
use solver::{Rule, Set, Sheet, Triple, MOST};

/// At most five fields and nine settings in all, and at most so many triples.
pub fn small_sheet(random: &mut Random, most_triples: usize) -> Sheet {
    let n = 2 + random.below(4);
    let mut left = 9 - n;
    let mut settings: Vec<Vec<u32>> = vec![];
    for _ in 0..n {
        let more = random.below(left.min(2) + 1);
        left -= more;
        settings.push((0..=more as u32).map(|k| 3 * k + random.below(3) as u32).collect());
    }
    let mut rules = vec![];
    for (i, j) in (0..n).flat_map(|i| (i + 1..n).map(move |j| (i, j))) {
        let kind = random.below(7) as u32;
        let numbers = match kind {
            6 => continue,
            0 => settings[i].iter().map(|_| (random.below(1 << settings[j].len()) | random.below(1 << settings[j].len())) as u32).collect(),
            3..=5 => vec![random.below(5) as u32],
            _ => vec![random.below(2) as u32],
        };
        rules.push(Rule { i, j, kind, numbers });
    }
    let triples = triples(random, n, most_triples, 5);
    Sheet { settings, reach: [1, 1, 2, 3, 24][random.below(5)], rules, triples }
}

/// At most so many triples of n fields, each with a number c below the end.
pub fn triples(random: &mut Random, n: usize, most: usize, end: usize) -> Vec<Triple> {
    let every = (0..n).flat_map(|i| (i + 1..n).flat_map(move |j| (j + 1..n).map(move |k| (i, j, k))));
    let mut triples: Vec<Triple> = every.map(|(i, j, k)| Triple { i, j, k, c: random.below(end) as u32 }).collect();
    let count = random.below(most + 1);
    while triples.len() > count {
        triples.remove(random.below(triples.len()));
    }
    triples
}

/// The settings of a set: fields and positions.
pub fn settings_of(set: &Set) -> Vec<(usize, usize)> {
    (0..MOST).flat_map(|f| (0..MOST).filter(move |v| set[f] >> v & 1 == 1).map(move |v| (f, v))).collect()
}
