//! Sheets as numbers and bytes, a few fixed ones, and damaged ones.

use crate::random_triples::damage_triples;
use crate::shapes::every;
use crate::Random;
use solver::reading::groups;
use solver::{Rule, Sheet, Triple, LARGEST_SETTING, MOST_TRIPLES};

/// The list of numbers of a sheet.
pub fn numbers(sheet: &Sheet) -> Vec<u32> {
    let mut numbers = vec![sheet.fields() as u32];
    for settings in &sheet.settings {
        numbers.push(settings.len() as u32);
        numbers.extend(settings);
    }
    numbers.extend([sheet.reach, sheet.rules.len() as u32]);
    for rule in &sheet.rules {
        numbers.extend([rule.i as u32, rule.j as u32, rule.kind]);
        numbers.extend(&rule.numbers);
    }
    if !sheet.triples.is_empty() {
        numbers.push(sheet.triples.len() as u32);
    }
    for triple in &sheet.triples {
        numbers.extend(triple.fields().map(|f| f as u32));
        numbers.push(triple.c);
    }
    numbers
}

/// The bytes of a sheet.
pub fn bytes(sheet: &Sheet) -> Vec<u8> {
    groups(&numbers(sheet))
}

/// The numbers of the largest sheet: 24 fields of 24 settings in three groups, 276 rules of 24 masks in four, and 32 triples with a number
/// c in three.
pub fn largest() -> Vec<u32> {
    let rule = |(i, j)| Rule { i, j, kind: 0, numbers: vec![(1 << 24) - 1; 24] };
    let settings = vec![(LARGEST_SETTING - 23..=LARGEST_SETTING).collect(); 24];
    numbers(&Sheet { settings, reach: 24, rules: every(24).map(rule).collect(), triples: most_triples() })
}

/// As many triples of 24 fields as may be, with the largest c.
pub fn most_triples() -> Vec<Triple> {
    let pairs = every(24).filter(|&(j, _)| j > 0).take(MOST_TRIPLES as usize);
    pairs.map(|(j, k)| Triple { i: 0, j, k, c: LARGEST_SETTING }).collect()
}

/// The largest setting of a sheet, the largest number c of its rules, and that of its triples; 0 where there is none.
pub fn widest(sheet: &Sheet) -> [u32; 3] {
    let setting = sheet.settings.iter().flatten().copied().max();
    let of_rules = sheet.rules.iter().filter(|rule| rule.kind > 0).map(|rule| rule.numbers[0]).max();
    let of_triples = sheet.triples.iter().map(|triple| triple.c).max();
    [setting, of_rules, of_triples].map(|most| most.unwrap_or(0))
}

/// Fields {1, 2} with a distance of at least 1 for each of these pairs.
pub fn unequal(fields: usize, reach: u32, pairs: &[(usize, usize)]) -> Sheet {
    let rule = |&(i, j): &(usize, usize)| Rule { i, j, kind: 3, numbers: vec![1] };
    Sheet { settings: vec![vec![1, 2]; fields], reach, rules: pairs.iter().map(rule).collect(), triples: vec![] }
}

/// Every string of so many bytes that are often at the edge of something: small numbers, and groups that end or continue.
pub fn strings(length: u32) -> impl Iterator<Item = Vec<u8>> {
    const CHOICES: [u8; 12] = [0, 1, 2, 5, 24, 25, 100, 127, 128, 129, 200, 255];
    let byte = |code: usize, place: u32| CHOICES[code / CHOICES.len().pow(place) % CHOICES.len()];
    (0..CHOICES.len().pow(length)).map(move |code| (0..length).map(|place| byte(code, place)).collect())
}

/// A number that is often at the edge of some range.
pub fn edge(random: &mut Random) -> u32 {
    match random.below(9) {
        0 => random.below(30) as u32,
        1 => random.from(65_534, 65_537) as u32,
        2 => LARGEST_SETTING - 1 + random.below(4) as u32,
        3 => random.from((1 << 28) - 2, (1 << 28) + 1) as u32,
        4 => u32::MAX - random.below(2) as u32,
        5 => 0,
        6 => 1 << random.below(32),
        7 => (1u64 << random.below(33)).wrapping_sub(1) as u32,
        _ => random.below(300) as u32,
    }
}

/// Changes, cuts or extends a list of numbers.
pub fn damage_numbers(random: &mut Random, numbers: &mut Vec<u32>) {
    for _ in 0..random.from(1, 2) {
        let at = random.below(numbers.len() + 1);
        match random.below(8) {
            0 => numbers.truncate(at),
            1 => numbers.push(edge(random)),
            2 => numbers.insert(at, edge(random)),
            3 if at < numbers.len() => drop(numbers.remove(at)),
            4 if at + 1 < numbers.len() => numbers.swap(at, at + 1),
            5 if at + 1 < numbers.len() => numbers[at + 1] = numbers[at],
            _ if at < numbers.len() => numbers[at] = edge(random),
            _ => (),
        }
    }
}

/// Exchanges the fields of a rule in a sheet's list of numbers, or gives it another kind: the retired one, or one that there is not.
pub fn damage_rule(random: &mut Random, sheet: &Sheet, list: &mut [u32]) {
    if sheet.rules.is_empty() {
        return;
    }
    let before = sheet.rules[..random.below(sheet.rules.len())].to_vec();
    let rule = numbers(&Sheet { rules: before, triples: vec![], ..sheet.clone() }).len();
    if random.one_in(2) {
        list.swap(rule, rule + 1);
    } else {
        list[rule + 2] = random.pick(&[2, 2, 6]);
    }
}

/// Where each number of some bytes ends.
fn ends(bytes: &[u8]) -> Vec<usize> {
    (0..bytes.len()).filter(|&place| bytes[place] < 128).collect()
}

/// Changes, cuts or extends bytes, or writes a number in more groups than it needs.
pub fn damage_bytes(random: &mut Random, bytes: &mut Vec<u8>) {
    let at = random.below(bytes.len() + 1);
    let ends = ends(bytes);
    match random.below(9) {
        0 => bytes.truncate(at),
        1 => bytes.extend((0..random.from(1, 4)).map(|_| random.pick(&[0, 1, 128, 255]))),
        2 => bytes.insert(at, random.below(256) as u8),
        3 if at < bytes.len() => drop(bytes.remove(at)),
        4 if !ends.is_empty() => {
            let end = random.pick(&ends);
            let more = random.from(1, 4);
            bytes[end] |= 128;
            (1..more).for_each(|_| bytes.insert(end + 1, 128));
            bytes.insert(end + more, 0);
        }
        5 if !ends.is_empty() => {
            bytes.truncate(random.pick(&ends));
            bytes.extend(vec![128 + random.below(2) as u8; random.from(1, 5)]);
        }
        6 if at < bytes.len() => bytes[at] ^= 128,
        7 if at < bytes.len() => bytes[at] ^= 1 << random.below(7),
        _ if at < bytes.len() => bytes[at] = random.below(256) as u8,
        _ => (),
    }
}

/// The sheet with a field's last setting, or the number c of a rule or a triple, at the end of the range or just past it.
fn at_the_end(random: &mut Random, sheet: &Sheet) -> Sheet {
    let mut sheet = sheet.clone();
    let number = LARGEST_SETTING - 1 + random.below(4) as u32;
    let field = random.below(sheet.fields());
    let amounts = sheet.rules.iter_mut().filter(|rule| rule.kind > 0).map(|rule| &mut rule.numbers[0]);
    let mut places: Vec<&mut u32> = amounts.chain(sheet.triples.iter_mut().map(|triple| &mut triple.c)).collect();
    places.extend(sheet.settings[field].last_mut());
    let place = random.below(places.len());
    *places[place] = number;
    sheet
}

/// Changes, cuts or extends a sheet's list of numbers somewhere, in its rules or in its triples.
pub fn damage_list(random: &mut Random, sheet: &Sheet, list: &mut Vec<u32>) {
    match random.below(4) {
        0 => damage_rule(random, sheet, list),
        1 => damage_triples(random, sheet, list),
        _ => damage_numbers(random, list),
    }
}

/// The bytes of a sheet after some damage; now and then they are a sheet again.
pub fn damaged(random: &mut Random, sheet: &Sheet) -> Vec<u8> {
    if random.one_in(6) {
        return bytes(&at_the_end(random, sheet));
    }
    let mut numbers = numbers(sheet);
    let by_numbers = random.one_in(2);
    if by_numbers {
        damage_list(random, sheet, &mut numbers);
    }
    let mut bytes = groups(&numbers);
    if !by_numbers || random.one_in(4) {
        damage_bytes(random, &mut bytes);
    }
    bytes
}
