//! Measured sheets with triples.

use super::Source;
use random::Random;
use solver::{Sheet, Triple, LARGEST_SETTING, MOST_TRIPLES};

/// What the triples of a sheet allow.
#[derive(Clone, Copy, Debug, PartialEq)]
pub enum Draft {
    /// Everything, so that they narrow nothing.
    Loose,
    /// What the middle settings need and a tenth of the span of the field between, so that they narrow the sheet.
    Tight,
}

impl Draft {
    pub fn label(self) -> &'static str {
        match self {
            Draft::Loose => "all allowed",
            Draft::Tight => "narrowing",
        }
    }

    /// The number c of a triple of these fields.
    fn amount(self, sheet: &Sheet, [i, j, k]: [usize; 3]) -> u32 {
        if self == Draft::Loose {
            return LARGEST_SETTING;
        }
        let [p, q, r] = [i, j, k].map(|f| sheet.settings[f][sheet.settings[f].len() / 2]);
        let settings = &sheet.settings[j];
        (p + r).abs_diff(2 * q) + (settings[settings.len() - 1] - settings[0]) / 10
    }
}

impl Source {
    /// The fields of the triples that a sheet with this seed may have, those that it has first in front. On a page of a mill they are of
    /// one sort, of consecutive passes first.
    fn threes(&self, seed: u64) -> Vec<[usize; 3]> {
        let n = self.fields();
        let every = (0..n).flat_map(|i| (i + 1..n).flat_map(move |j| (j + 1..n).map(move |k| [i, j, k])));
        let mut threes: Vec<[usize; 3]> = every.collect();
        if let Source::Mill(_) = self {
            threes.retain(|[i, j, k]| i % 3 == j % 3 && j % 3 == k % 3);
            threes.sort_by_key(|[i, _, k]| (k - i, i % 3, i / 3));
        } else {
            Random(seed).shuffle(&mut threes);
        }
        threes.truncate(MOST_TRIPLES as usize);
        threes
    }

    /// The most triples that its sheets may have.
    pub fn most_triples(&self) -> usize {
        self.threes(0).len()
    }

    /// The sheet with this seed and so many triples, at reach 24. Those of a smaller count are among those of a larger one.
    pub fn drafted(&self, seed: u64, draft: Draft, count: usize) -> Sheet {
        let mut sheet = self.sheet(seed);
        let mut threes = self.threes(seed)[..count].to_vec();
        threes.sort_unstable();
        let triple = |&[i, j, k]: &[usize; 3]| Triple { i, j, k, c: draft.amount(&sheet, [i, j, k]) };
        sheet.triples = threes.iter().map(triple).collect();
        sheet
    }
}
