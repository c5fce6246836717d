//! Random sheets on which a setting often has support and fails its test, and start sets.

use crate::small::{small_sheet, triples};
use random::Random;
use solver::{Network, Rule, Set, Sheet};

/// Four to six fields of two to four settings, with rules under which a setting often has support and fails its test: unequal settings, or
/// some of the pairs. There are at most so many triples.
fn hard_sheet(random: &mut Random, most_triples: usize) -> Sheet {
    let n = random.from(4, 6);
    let settings: Vec<Vec<u32>> = (0..n).map(|_| (0..random.from(2, 4) as u32).collect()).collect();
    let (unequal, joined, allowed) = (random.one_in(2), random.from(4, 9), random.from(4, 8));
    let mut rules = vec![];
    for (i, j) in (0..n).flat_map(|i| (i + 1..n).map(move |j| (i, j))) {
        if random.below(10) >= joined {
            continue;
        }
        let mut mask = || (0..settings[j].len()).filter(|_| random.below(10) < allowed).map(|u| 1 << u).sum();
        let (kind, numbers) = if unequal { (3, vec![1]) } else { (0, settings[i].iter().map(|_| mask()).collect()) };
        rules.push(Rule { i, j, kind, numbers });
    }
    let triples = triples(random, n, most_triples, 4);
    Sheet { settings, reach: random.pick(&[1, 1, 2, 3, 24]), rules, triples }
}

/// Random sheets with at most so many triples, each with a start set: every setting, or most of them.
pub fn sheets(seed: u64, count: usize, most_triples: usize) -> impl Iterator<Item = (Sheet, Network, Set)> {
    let mut random = Random(seed);
    (0..count).map(move |_| {
        let sheet = if random.one_in(4) { small_sheet(&mut random, most_triples) } else { hard_sheet(&mut random, most_triples) };
        let network = Network::of(&sheet);
        let mut set = network.full;
        if random.one_in(3) {
            set.iter_mut().for_each(|domain| *domain &= (random.word() | random.word()) as u32);
        }
        (sheet, network, set)
    })
}
