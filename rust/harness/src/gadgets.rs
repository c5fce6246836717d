//! Sheets built so that a removal matters many rules away, or not at all in a part of the sheet, or so that a triple matters that has a
//! field outside a neighbourhood, or that alone makes fields neighbours.

use crate::shapes::ring;
use crate::Random;
use solver::{Rule, Sheet, Triple, MOST_TRIPLES};

/// A ring of an odd number of fields {1, 2}, neighbours unequal. Field 0 and another, g, have a third setting, and one of the two must take
/// it. Field 0 also stands in a triangle that forbids its third setting to a test but not to closing. Once it is gone, the first two
/// settings of g fail their tests, and nothing else does. The ring has one of the given sizes, and the fields have any names.
pub fn far(random: &mut Random, sizes: &[usize]) -> Sheet {
    let m = random.pick(sizes);
    let g = random.from(1, m - 1);
    let (a, b) = (m, m + 1);
    let mut settings = vec![vec![1, 2]; m + 2];
    settings[0].push(3);
    settings[g].push(3);
    let unequal = |(i, j)| Rule { i, j, kind: 3, numbers: vec![1] };
    let mut rules: Vec<Rule> = ring(m).into_iter().map(unequal).collect();
    rules.extend([a, b].map(|j| Rule { i: 0, j, kind: 0, numbers: vec![3, 3, 1] }));
    rules.push(unequal((a, b)));
    let radius = m as u32 / 2;
    let reach = random.pick(&[radius, radius, radius + 1, radius - 1, 24]);
    let mut sheet = Sheet { settings, reach, rules, triples: vec![] };
    let names = random.order(m + 2);
    rename(&mut sheet, &names);
    sheet
}

/// Field 0 is at or above two others, each at the end of a chain of equal fields, and these two stand in line with a field between them,
/// which has no rule. The first setting of field 0 needs that of the field between, which is on the sheet half of the time. At a reach of
/// the chains' length, one of those given, that field is outside the neighbourhood of field 0. The fields have any names.
pub fn with_a_field_outside(random: &mut Random, lengths: &[usize]) -> Sheet {
    let length = random.pick(lengths);
    let (first, second, between) = (length, 2 * length, 2 * length + 1);
    let (base, step) = (random.pick(&[0, 9, 65_535]), random.pick(&[1, 7, 1000]));
    let mut settings = vec![[0, 1, 2].map(|v| base + v * step).to_vec(); between + 1];
    if random.one_in(2) {
        settings[between].remove(0);
    }
    let rule = |i, j, kind| Rule { i, j, kind, numbers: vec![0] };
    let mut rules = vec![rule(0, 1, 1), rule(0, length + 1, 1)];
    rules.extend((1..second).filter(|&f| f != first).map(|f| rule(f, f + 1, 4)));
    let mut names = random.order(between + 1);
    let mut three = [first, between, second].map(|f| names[f]);
    three.sort_unstable();
    [names[first], names[between], names[second]] = three;
    let triples = vec![Triple { i: first, j: between, k: second, c: random.below(step as usize) as u32 }];
    let mut sheet = Sheet { settings, reach: random.pick(&[length, length, length + 1, 24]) as u32, rules, triples };
    rename(&mut sheet, &names);
    sheet
}

/// Fields {1, 2} in a chain of triples that ask for equal ones, as many as one of these counts, and a rule that asks for unequal ones in
/// the last two. A test sees that where triples lead there within the reach. The fields have any names.
pub fn joined_by_triples(random: &mut Random, counts: &[usize]) -> Sheet {
    let count = random.pick(counts);
    let n = 2 * count + 1;
    let rules = vec![Rule { i: n - 2, j: n - 1, kind: 3, numbers: vec![1] }];
    let triples = (0..count).map(|t| Triple { i: 2 * t, j: 2 * t + 1, k: 2 * t + 2, c: 0 }).collect();
    let reach = random.pick(&[count - count / 2, count, count + 1, 24]) as u32;
    let mut settings = vec![vec![1, 2]; n];
    settings[n - 1].extend(random.one_in(2).then_some(3));
    let mut sheet = Sheet { settings, reach: reach.min(24), rules, triples };
    let names = random.order(n);
    rename(&mut sheet, &names);
    sheet
}

/// Two sheets in one, with no rule or triple between them, at the reach of the first. The fields have any names.
pub fn apart(random: &mut Random, first: Sheet, second: Sheet) -> Sheet {
    let mut sheet = first;
    let n = sheet.fields();
    sheet.settings.extend(second.settings);
    sheet.rules.extend(second.rules.into_iter().map(|rule| Rule { i: rule.i + n, j: rule.j + n, ..rule }));
    sheet.triples.extend(second.triples.into_iter().map(|triple| named(triple, triple.fields().map(|f| f + n))));
    sheet.triples.truncate(MOST_TRIPLES as usize);
    let names = random.order(sheet.fields());
    rename(&mut sheet, &names);
    sheet
}

/// The sheet with its fields in another order: field f is called `names[f]`. Rules of kind 0 are turned where their fields change sides.
/// The fields of a triple are put in their order, so another one may stand in the middle.
pub fn rename(sheet: &mut Sheet, names: &[u8]) {
    let old = sheet.clone();
    for (f, settings) in old.settings.iter().enumerate() {
        sheet.settings[usize::from(names[f])].clone_from(settings);
    }
    for rule in &mut sheet.rules {
        let (i, j) = (usize::from(names[rule.i]), usize::from(names[rule.j]));
        if i > j {
            turn(rule, old.settings[rule.j].len());
        }
        (rule.i, rule.j) = (i.min(j), i.max(j));
    }
    sheet.rules.sort_by_key(|rule| (rule.i, rule.j));
    for triple in &mut sheet.triples {
        *triple = named(*triple, triple.fields().map(|f| names[f].into()));
    }
    sheet.triples.sort_by_key(Triple::fields);
}

/// The triple of these fields with the same c.
fn named(triple: Triple, mut fields: [usize; 3]) -> Triple {
    fields.sort_unstable();
    let [i, j, k] = fields;
    Triple { i, j, k, ..triple }
}

/// Exchanges the sides of a rule whose second field has d settings.
fn turn(rule: &mut Rule, d: usize) {
    match rule.kind {
        0 => {
            let column = |u: usize| (0..rule.numbers.len()).filter(|&v| rule.numbers[v] >> u & 1 == 1).map(|v| 1 << v).sum();
            rule.numbers = (0..d).map(column).collect();
        }
        1 => rule.kind = 2,
        2 => rule.kind = 1,
        _ => (),
    }
}
