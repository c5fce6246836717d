//! Random triples: few or many, apart or sharing fields, with numbers c on both sides of what matters. Damaged ones.

use crate::sheets::{edge, numbers};
use crate::Random;
use solver::{Sheet, Triple, LARGEST_SETTING, MOST_TRIPLES};
use std::collections::BTreeSet;

/// The sheet with triples, half of the time, where it has three fields or more.
pub fn with_triples(random: &mut Random, mut sheet: Sheet) -> Sheet {
    let n = sheet.fields();
    let count = match random.below(8) {
        _ if n < 3 => 0,
        0..=3 => 0,
        4 | 5 => random.from(1, 2),
        6 => random.from(2, 8),
        _ if random.one_in(2) => MOST_TRIPLES as usize,
        _ => random.from(1, MOST_TRIPLES as usize),
    };
    let held: Vec<usize> = sheet.settings.iter().map(|settings| random.below(settings.len())).collect();
    for [i, j, k] in threes(random, n, count) {
        let c = amount(random, &sheet, [i, j, k], &held);
        sheet.triples.push(Triple { i, j, k, c });
    }
    sheet
}

/// At most so many times three of n fields, rising: any, those of one field, or neighbouring ones.
fn threes(random: &mut Random, n: usize, count: usize) -> BTreeSet<[usize; 3]> {
    let mut threes = BTreeSet::new();
    let (sort, shared) = (random.below(4), random.below(n));
    for _ in 0..4 * count {
        let first = if sort == 0 { shared } else { random.below(n) };
        let span = if sort == 1 { 5.min(n) } else { n };
        let mut fields = [first, first + random.below(span), first + random.below(span)].map(|f| f % n);
        fields.sort_unstable();
        if threes.len() < count && fields[0] < fields[1] && fields[1] < fields[2] {
            threes.insert(fields);
        }
    }
    threes
}

/// By how much p + r and 2 q differ at these positions of three fields.
fn difference(sheet: &Sheet, fields: [usize; 3], positions: [usize; 3]) -> u32 {
    let [p, q, r] = [0, 1, 2].map(|place| sheet.settings[fields[place]][positions[place]]);
    (p + r).abs_diff(2 * q)
}

/// A number c: just enough for the held positions, or a little more, just enough for others or just not, or at an end of the range.
fn amount(random: &mut Random, sheet: &Sheet, fields: [usize; 3], held: &[usize]) -> u32 {
    let any = fields.map(|f| random.below(sheet.settings[f].len()));
    let c = match random.below(8) {
        0 => random.pick(&[0, 1, LARGEST_SETTING - 1, LARGEST_SETTING]),
        1 => difference(sheet, fields, any).saturating_sub(1),
        2 => difference(sheet, fields, any),
        3 => difference(sheet, fields, fields.map(|f| held[f])) + 1,
        _ => difference(sheet, fields, fields.map(|f| held[f])),
    };
    c.min(LARGEST_SETTING)
}

/// How many numbers the sheet has before its triples.
pub fn front(sheet: &Sheet) -> usize {
    numbers(&Sheet { triples: vec![], ..sheet.clone() }).len()
}

/// A sheet's list of numbers, and one that follows it. Where three fields have no triple, one is put before it.
pub fn with_surplus(sheet: &Sheet) -> Vec<u32> {
    let mut list = numbers(sheet);
    if sheet.triples.is_empty() && sheet.fields() > 2 {
        list.extend([1, 0, 1, 2, 0]);
    }
    list.push(0);
    list
}

/// Changes, cuts or extends a sheet's list of numbers after its rules.
pub fn damage_triples(random: &mut Random, sheet: &Sheet, list: &mut Vec<u32>) {
    let (front, n) = (front(sheet), sheet.fields() as u32);
    if list.len() == front {
        let begun = [random.pick(&[0, 1, 2, 33]), 0, 1, 2, random.pick(&[0, LARGEST_SETTING, LARGEST_SETTING + 1]), 0];
        let count = if random.one_in(2) { 1 } else { random.from(2, begun.len()) };
        return list.extend(&begun[..count]);
    }
    let triple = front + 1 + 4 * random.below(sheet.triples.len());
    let (field, other) = (triple + random.below(3), edge(random));
    match random.below(11) {
        10 if triple > front + 1 => {
            (triple..triple + 2).for_each(|place| list.swap(place - 4, place));
            list[triple + 2] = n;
            list.truncate(random.from(triple + 2, list.len()));
        }
        0 => list[front] = random.pick(&[0, MOST_TRIPLES + 1, other]),
        1 => {
            list[front] += 1;
            list.extend(&[0, 1, n, 0][..random.below(5)]);
        }
        2 => list[front] -= 1,
        3 => list.truncate(random.from(front, list.len() - 1)),
        4 => list.push(other),
        5 => list[field] = random.pick(&[0, n - 1, n, other]),
        6 => list.swap(triple + random.below(2), triple + random.from(1, 2)),
        7 => list[triple + random.from(1, 2)] = list[triple + random.below(2)],
        8 if triple > front + 1 => list.copy_within(triple - 4..triple - 4 + random.from(1, 4), triple),
        8 => list.truncate(field),
        _ => list[triple + 3] = random.pick(&[LARGEST_SETTING, LARGEST_SETTING + 1, other]),
    }
    if random.one_in(4) {
        list.truncate(random.from(front, list.len()));
    }
}
