//! Set-up pages of a narrow strip mill: for each pass a gap, a tension and a roll pair, and rules between them.

use crate::WHOLE_REACH;
use random::Random;
use solver::{Rule, Sheet};

/// How large a page is. A pass has three fields.
#[derive(Clone, Copy, Debug)]
pub struct Mill {
    pub passes: usize,
    /// The settings of a gap, in micrometres.
    pub gaps: usize,
    /// The settings of a tension, in newtons.
    pub tensions: usize,
    /// The settings of a roll pair, its crown in micrometres.
    pub roll_pairs: usize,
}

/// Pages of 6, 12 and 24 fields.
pub const MILLS: [Mill; 3] = [
    Mill { passes: 2, gaps: 8, tensions: 6, roll_pairs: 6 },
    Mill { passes: 4, gaps: 16, tensions: 12, roll_pairs: 8 },
    Mill { passes: 8, gaps: 24, tensions: 16, roll_pairs: 12 },
];

fn gap(pass: usize) -> usize {
    3 * pass
}

fn tension(pass: usize) -> usize {
    gap(pass) + 1
}

fn roll_pair(pass: usize) -> usize {
    gap(pass) + 2
}

impl Mill {
    pub fn fields(&self) -> usize {
        3 * self.passes
    }

    /// The page with this seed, at reach 24.
    pub fn sheet(&self, seed: u64) -> Sheet {
        let mut random = Random(seed);
        let middle = self.middle_gaps(&mut random);
        let mut all = vec![];
        for (pass, &middle) in middle.iter().enumerate() {
            let step = middle * (10 + random.below(6) as u32) / 1000;
            all.push(settings(self.gaps, middle - self.gaps as u32 / 2 * step, step));
            all.push(settings(self.tensions, 3000 + 300 * pass as u32, 100 + 20 * random.below(3) as u32));
            all.push(settings(self.roll_pairs, 10 * random.below(3) as u32, 10));
        }
        let mut rules = self.chain(&mut random, &middle);
        rules.extend(self.tables(&mut random));
        rules.sort_unstable_by_key(|rule| (rule.i, rule.j));
        Sheet { settings: all, reach: WHOLE_REACH, rules, triples: vec![] }
    }

    /// For each pass the gap in the middle of its settings; each is an eighth to a quarter below the one before.
    fn middle_gaps(&self, random: &mut Random) -> Vec<u32> {
        let mut middle = vec![1800 + random.below(800) as u32];
        while middle.len() < self.passes {
            let last = middle[middle.len() - 1];
            middle.push(last * (75 + random.below(13) as u32) / 100);
        }
        middle
    }

    /// The rules of kinds 1 to 5, between consecutive passes and over two.
    fn chain(&self, random: &mut Random, middle: &[u32]) -> Vec<Rule> {
        let mut rules = vec![];
        let mut add = |i, j, kind, c| rules.push(Rule { i, j, kind, numbers: vec![c] });
        for pass in 1..self.passes {
            let before = pass - 1;
            let draught = middle[before] * (6 + random.below(5) as u32) / 100;
            add(gap(before), gap(pass), 1, draught);
            add(tension(before), tension(pass), 4, 400 + 100 * random.below(4) as u32);
            add(roll_pair(before), roll_pair(pass), 3, 10 + 10 * random.below(2) as u32);
        }
        for pass in 2..self.passes {
            let before = pass - 2;
            let most = middle[before] - middle[pass] + middle[before] / 20;
            add(gap(before), gap(pass), 4, most);
            add(tension(before), tension(pass), 2, 100 + 100 * random.below(3) as u32);
        }
        if self.passes > 2 {
            add(roll_pair(0), roll_pair(self.passes - 1), 5, 10 * random.below(3) as u32);
        }
        rules
    }

    /// The tables of kind 0 in each pass: the tensions and the roll pairs allowed with a gap.
    fn tables(&self, random: &mut Random) -> Vec<Rule> {
        let mut rules = vec![];
        for pass in 0..self.passes {
            for (j, count) in [(tension(pass), self.tensions), (roll_pair(pass), self.roll_pairs)] {
                rules.push(Rule { i: gap(pass), j, kind: 0, numbers: band(random, self.gaps, count) });
            }
        }
        rules
    }
}

/// The settings of a field.
fn settings(count: usize, first: u32, step: u32) -> Vec<u32> {
    (0..count as u32).map(|place| first + place * step).collect()
}

/// A table that allows most pairs near its diagonal, and few others.
fn band(random: &mut Random, rows: usize, columns: usize) -> Vec<u32> {
    let mut row = |v: usize| {
        let allowed = |&u: &usize| {
            let near = (v * columns).abs_diff(u * rows) < rows * columns / 3;
            random.below(10) < if near { 8 } else { 2 }
        };
        (0..columns).filter(allowed).map(|u| 1 << u).sum()
    };
    (0..rows).map(&mut row).collect()
}
