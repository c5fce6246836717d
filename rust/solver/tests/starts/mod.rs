//! Small random sheets, each with a start set.

use crate::enumeration::every_setting;
use crate::small::{small_sheet, triples};
use random::Random;
use solver::{Rule, Set, Sheet, Triple, MOST};

/// The settings of some fields: 0 and 1 for each, and 2 for some of them, up to a total.
fn settings(random: &mut Random, fields: usize, total: usize) -> Vec<Vec<u32>> {
    let mut settings = vec![vec![0, 1]; fields];
    while settings.concat().len() < total {
        settings[random.below(fields)] = vec![0, 1, 2];
    }
    settings
}

/// Adds a number to every setting of a field.
fn shift(settings: &mut [u32], by: usize) {
    settings.iter_mut().for_each(|setting| *setting += by as u32);
}

/// The fields 0 to 3 in random order.
fn four_fields(random: &mut Random) -> Vec<usize> {
    random.order(4).into_iter().map(usize::from).collect()
}

/// The rule of kind 0 for fields f and g, in either order, that allows these positions of f and g.
fn table(settings: &[Vec<u32>], (f, g): (usize, usize), mut allowed: impl FnMut(usize, usize) -> bool) -> Rule {
    let (i, j) = (f.min(g), f.max(g));
    let mut both = |v: usize, u: usize| if i == f { allowed(v, u) } else { allowed(u, v) };
    let mut mask = |v: usize| (0..settings[j].len()).filter(|&u| both(v, u)).map(|u| 1 << u).sum();
    Rule { i, j, kind: 0, numbers: (0..settings[i].len()).map(&mut mask).collect() }
}

/// Four or five fields and ten settings. Half of the pairs of fields have a rule: unequal positions, or two thirds of the pairs of
/// positions. A setting often has support and fails its test.
fn sparse_sheet(random: &mut Random) -> Sheet {
    let n = random.pick(&[4, 4, 5]);
    let mut settings = settings(random, n, 10);
    settings.iter_mut().for_each(|list| shift(list, random.below(3)));
    let unequal = random.one_in(2);
    let mut rules = vec![];
    for pair in (0..n).flat_map(|i| (i + 1..n).map(move |j| (i, j))) {
        if random.one_in(2) {
            rules.push(table(&settings, pair, |v, u| if unequal { v != u } else { random.below(3) > 0 }));
        }
    }
    let triples = triples(random, n, 2, 3);
    Sheet { settings, reach: random.pick(&[1, 1, 2, 3, 24]), rules, triples }
}

/// Four fields at reach 1, in random order. Position 2 of the first field fails its test. Position 1 of the third fails only when that one
/// is gone.
fn chained_sheet(random: &mut Random) -> Sheet {
    let order = four_fields(random);
    let mut settings = vec![vec![0, 1]; 4];
    settings[order[0]].push(2);
    let masks = [(0, 1, [2, 1, 3]), (0, 2, [1, 3, 2]), (0, 3, [3, 3, 1]), (1, 2, [1, 3, 0]), (1, 3, [3, 2, 0])];
    let mut rules = masks.map(|(f, g, masks)| table(&settings, (order[f], order[g]), |v, u| masks[v] >> u & 1 == 1));
    rules.sort_by_key(|rule| (rule.i, rule.j));
    Sheet { settings, reach: 1, rules: rules.into(), triples: vec![] }
}

/// Four fields at reach 1, in random order. The last three have a triple, and rules join the first to one or two of these, so that the
/// others are outside its neighbourhood. By each rule position 0 of the first goes with one position only. If there is one rule, the
/// settings of the field joined are larger, and the triple excludes some. The last field lacks a setting in the start set.
fn split_sheet(random: &mut Random) -> (Sheet, Set) {
    let order = four_fields(random);
    let total = random.from(8, 9);
    let mut settings = settings(random, 4, total);
    let joined = random.pick(&[1, 2, 2, 2]);
    if joined == 1 {
        shift(&mut settings[order[1]], 2);
    }
    let mut rules = vec![];
    for &f in &order[1..=joined] {
        let position = random.below(2);
        rules.push(table(&settings, (order[0], f), |v, u| v > 0 || u == position));
    }
    rules.sort_by_key(|rule| (rule.i, rule.j));
    let mut three = [order[1], order[2], order[3]];
    three.sort();
    let triples = vec![Triple { i: three[0], j: three[1], k: three[2], c: random.pick(&[0, 1, 1, 1]) }];
    let sheet = Sheet { settings, reach: 1, rules, triples };
    let mut set = every_setting(&sheet);
    set[order[3]] &= !(1 << random.below(sheet.settings[order[3]].len()));
    (sheet, set)
}

/// Strikes settings of some fields, cuts some fields to one setting, and now and then empties a field.
fn thin(random: &mut Random, set: &mut Set) {
    for domain in set.iter_mut().filter(|domain| **domain != 0) {
        match random.below(30) {
            0 => *domain = 0,
            1..=3 => {
                while domain.count_ones() > 1 {
                    *domain &= !(1 << random.below(MOST));
                }
            }
            4..=11 => *domain &= (random.word() | random.word()) as u32,
            _ => (),
        }
    }
}

/// Random sheets with start sets: every setting, or a part.
pub fn starts(seed: u64, count: usize) -> impl Iterator<Item = (Sheet, Set)> {
    let mut random = Random(seed);
    let full = |sheet: Sheet| {
        let set = every_setting(&sheet);
        (sheet, set)
    };
    (0..count).map(move |_| {
        let (sheet, mut set) = match random.below(10) {
            0 | 1 => full(small_sheet(&mut random, 2)),
            2 | 3 => full(sparse_sheet(&mut random)),
            4 => full(chained_sheet(&mut random)),
            _ => split_sheet(&mut random),
        };
        if random.one_in(3) {
            thin(&mut random, &mut set);
        }
        (sheet, set)
    })
}
