//! The sheets that are measured: random ones, planted ones, long ones and pages of a mill. The same sheet for the same seed.

mod drafts;
mod mill;

pub use drafts::Draft;
pub use mill::{Mill, MILLS};

use crate::WHOLE_REACH;
use harness::shapes::every;
use random::Random;
use solver::{Rule, Sheet};
use std::cmp::Reverse;

/// A class of random sheets whose rules are all of kind 0.
#[derive(Clone, Copy, Debug, PartialEq)]
pub struct Class {
    pub fields: usize,
    pub settings: usize,
    /// The share of the pairs of fields that have a rule.
    pub density: f64,
    /// The share of the pairs of settings that a rule forbids.
    pub tightness: f64,
    pub reach: u32,
}

impl Class {
    /// The largest size, at reach 24.
    pub const fn largest(density: f64, tightness: f64) -> Class {
        Class { fields: 24, settings: 24, density, tightness, reach: WHOLE_REACH }
    }

    /// The sheet of this class with this seed. With the same seed, sheets of two reaches differ in the reach only.
    pub fn sheet(&self, seed: u64) -> Sheet {
        let mut random = Random(seed);
        let ruled = random.marks(self.fields * (self.fields - 1) / 2, self.density);
        self.with_rules(every(self.fields).zip(ruled).filter(|&(_, rule)| rule).map(|(pair, _)| pair), random)
    }

    /// The long sheet with this seed: a rule joins each field to the next two, whatever the density.
    pub fn long(&self, seed: u64) -> Sheet {
        self.with_rules(every(self.fields).filter(|(i, j)| j - i <= 2), Random(seed))
    }

    fn with_rules(&self, pairs: impl Iterator<Item = (usize, usize)>, mut random: Random) -> Sheet {
        let d = self.settings;
        let mut rules = vec![];
        for (i, j) in pairs {
            let forbidden = random.marks(d * d, self.tightness);
            rules.push(Rule { i, j, kind: 0, numbers: forbidden.chunks(d).map(allowed).collect() });
        }
        Sheet { settings: vec![(0..d as u32).collect(); self.fields], reach: self.reach, rules, triples: vec![] }
    }

    /// The sheet with the pairs of one complete set-up added, drawn at random, so that some choice is accepted.
    pub fn planted(&self, seed: u64) -> Sheet {
        let mut sheet = self.sheet(seed);
        let mut random = Random(!seed);
        let positions: Vec<usize> = (0..self.fields).map(|_| random.below(self.settings)).collect();
        for rule in &mut sheet.rules {
            rule.numbers[positions[rule.i]] |= 1 << positions[rule.j];
        }
        sheet
    }
}

/// The mask of the places that are not forbidden.
fn allowed(forbidden: &[bool]) -> u32 {
    forbidden.iter().enumerate().map(|(place, &forbidden)| u32::from(!forbidden) << place).sum()
}

/// The mask of so many fields of a sheet: those with the most rules, of equals the first.
pub fn busiest(sheet: &Sheet, count: usize) -> u32 {
    let rules = |f: usize| sheet.rules.iter().filter(|rule| rule.i == f || rule.j == f).count();
    let mut fields: Vec<usize> = (0..sheet.fields()).collect();
    fields.sort_by_key(|&f| Reverse(rules(f)));
    fields[..count].iter().map(|f| 1 << f).sum()
}

/// Where measured sheets come from.
#[derive(Clone, Copy, Debug)]
pub enum Source {
    Mill(Mill),
    Random(Class),
    Planted(Class),
    Long(Class),
}

impl Source {
    pub fn fields(&self) -> usize {
        match self {
            Source::Mill(mill) => mill.fields(),
            Source::Random(class) | Source::Planted(class) | Source::Long(class) => class.fields,
        }
    }

    /// What the sheets are, for the first cell of a row.
    pub fn label(&self) -> String {
        match self {
            Source::Mill(mill) => format!("{} passes", mill.passes),
            Source::Random(class) => format!("density {}, tightness {}", class.density, class.tightness),
            Source::Planted(class) => format!("density {}, tightness {}, planted", class.density, class.tightness),
            Source::Long(class) => format!("long, tightness {}", class.tightness),
        }
    }

    /// The sheet with this seed, at reach 24.
    pub fn sheet(&self, seed: u64) -> Sheet {
        match self {
            Source::Mill(mill) => mill.sheet(seed),
            Source::Random(class) => class.sheet(seed),
            Source::Planted(class) => class.planted(seed),
            Source::Long(class) => class.long(seed),
        }
    }
}

/// Sheets to be measured.
#[derive(Clone, Copy, Debug)]
pub struct Series {
    pub source: Source,
    pub first_seed: u64,
    pub reaches: &'static [u32],
}

impl Series {
    pub const fn new(source: Source, first_seed: u64, reaches: &'static [u32]) -> Series {
        Series { source, first_seed, reaches }
    }

    /// The first sheets of the series, at a reach.
    pub fn sheets(&self, count: usize, reach: u32) -> Vec<Sheet> {
        (self.first_seed..).take(count).map(|seed| Sheet { reach, ..self.source.sheet(seed) }).collect()
    }
}

/// The reaches at which most sheets are measured.
pub const REACHES: &[u32] = &[1, 2, WHOLE_REACH];

/// The pages of a mill.
pub const PAGES: [Series; 3] = [
    Series::new(Source::Mill(MILLS[0]), 1, REACHES),
    Series::new(Source::Mill(MILLS[1]), 1, REACHES),
    Series::new(Source::Mill(MILLS[2]), 1, REACHES),
];

/// Sheets around the tightness where they begin to be wiped out, at open and, in the last two, after a choice.
pub const HARDEST: [Series; 5] = [
    Series::new(Source::Planted(Class::largest(0.2, 0.7)), 3000, REACHES),
    Series::new(Source::Planted(Class::largest(0.5, 0.58)), 6000, REACHES),
    Series::new(Source::Planted(Class::largest(1.0, 0.5)), 9000, REACHES),
    Series::new(Source::Random(Class::largest(0.5, 0.5)), 5000, &[WHOLE_REACH]),
    Series::new(Source::Random(Class::largest(1.0, 0.38)), 13_000, &[WHOLE_REACH]),
];

/// Densities, each with some tightnesses.
pub type Densities = [(f64, &'static [f64])];

/// For 24 fields of 24 settings: tightnesses around the one where sheets begin to be wiped out at reach 24.
pub const LARGE: &Densities = &[(0.2, &[0.5, 0.6, 0.7, 0.72]), (0.5, &[0.5, 0.58, 0.6, 0.7]), (1.0, &[0.5, 0.52, 0.6, 0.7])];

/// The same for 8 fields of 6 settings.
pub const SMALL: &Densities = &[(0.5, &[0.3, 0.4, 0.5, 0.6]), (1.0, &[0.2, 0.3, 0.4, 0.5])];

/// The classes of all densities and tightnesses, at reach 24, each with the seed of its first sheet.
pub fn random_classes(fields: usize, settings: usize, densities: &Densities) -> Vec<(Class, u64)> {
    let tightened = densities.iter().flat_map(|&(density, list)| list.iter().map(move |&tightness| (density, tightness)));
    let class = |(density, tightness)| Class { fields, settings, density, tightness, reach: WHOLE_REACH };
    tightened.map(class).zip((1..).map(|thousands| 1000 * thousands)).collect()
}

/// The same as series, at the reaches at which most sheets are measured.
pub fn random_series(fields: usize, settings: usize, densities: &Densities) -> Vec<Series> {
    let classes = random_classes(fields, settings, densities).into_iter();
    classes.map(|(class, first_seed)| Series::new(Source::Random(class), first_seed, REACHES)).collect()
}

/// For 24 fields of 24 settings: tightnesses around the one where sheets begin to be wiped out at reach 2.
const AT_REACH_2: &Densities = &[
    (0.1, &[0.76, 0.8, 0.84, 0.86, 0.88, 0.9]),
    (0.2, &[0.66, 0.68, 0.7, 0.71, 0.72, 0.74]),
    (0.5, &[0.55, 0.56, 0.57, 0.58, 0.59, 0.6]),
    (1.0, &[0.49, 0.5, 0.51, 0.515, 0.52, 0.53]),
];

/// The same for long sheets.
const LONG_AT_REACH_2: &[f64] = &[0.72, 0.74, 0.76, 0.78, 0.79, 0.8];

/// Sheets around the tightness where they begin to be wiped out at reach 2: those of each density, and long ones.
pub fn at_reach_2() -> Vec<Vec<Series>> {
    let tightened = |source: fn(Class) -> Source, density: f64, list: &[f64]| -> Vec<Series> {
        let sources = list.iter().map(|&tightness| source(Class::largest(density, tightness)));
        sources.zip(20..).map(|(source, thousands)| Series::new(source, 1000 * thousands, &[2])).collect()
    };
    let mut all: Vec<Vec<Series>> = AT_REACH_2.iter().map(|&(density, list)| tightened(Source::Random, density, list)).collect();
    all.push(tightened(Source::Long, 1.0, LONG_AT_REACH_2));
    all
}

/// Classes in which one quantity grows and the others are held. Every setting passes its test.
pub fn growing() -> [(&'static str, Vec<Class>); 3] {
    let class = Class::largest(0.5, 0.1);
    [
        ("By fields", [4, 8, 12, 16, 20, 24].map(|fields| Class { fields, ..class }).into()),
        ("By settings", [4, 8, 16, 24].map(|settings| Class { settings, ..class }).into()),
        ("By density", [0.2, 0.5, 1.0].map(|density| Class { density, ..class }).into()),
    ]
}
