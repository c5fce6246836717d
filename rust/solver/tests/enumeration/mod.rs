//! Closing, tests and offers by enumeration: a largest set is sought among all subsets, and only the sheet says what is closed.

use crate::near::near;
use crate::small::settings_of;
use solver::network::includes;
use solver::{Set, Sheet, Triple, MOST};
use std::collections::BTreeMap;

/// Every setting of a sheet.
pub fn every_setting(sheet: &Sheet) -> Set {
    let mut set = [0; MOST];
    sheet.settings.iter().enumerate().for_each(|(f, settings)| (0..settings.len()).for_each(|v| set[f] |= 1 << v));
    set
}

/// Every subset of a set.
pub fn subsets(set: &Set) -> impl Iterator<Item = Set> {
    let settings = settings_of(set);
    (0..1u32 << settings.len()).map(move |code| {
        let mut subset = [0; MOST];
        for (place, &(f, v)) in settings.iter().enumerate() {
            subset[f] |= (code >> place & 1) << v;
        }
        subset
    })
}

/// The one of these sets that includes every other one: their union is one of them.
fn largest(sets: impl Iterator<Item = Set>) -> Set {
    let (mut union, mut largest) = ([0; MOST], None);
    for set in sets {
        union.iter_mut().zip(&set).for_each(|(domain, other)| *domain |= other);
        if set == union {
            largest = Some(set);
        }
    }
    assert_eq!(largest, Some(union), "none of the sets includes all others");
    union
}

/// A set with only these fields.
fn restricted(set: &Set, fields: &[usize]) -> Set {
    let mut part = [0; MOST];
    fields.iter().for_each(|&f| part[f] = set[f]);
    part
}

/// Whether every setting of these fields has, under each rule that joins two of them, an allowed partner, and under each triple an allowed
/// pair of partners. Under a triple, other fields may take any setting of the set `outside`.
fn closed(sheet: &Sheet, set: &Set, fields: &[usize], outside: &Set) -> bool {
    let inside = sheet.rules.iter().filter(|rule| fields.contains(&rule.i) && fields.contains(&rule.j));
    let by_rules = inside.into_iter().all(|rule| {
        let positions = |f: usize| (0..sheet.settings[f].len()).filter(move |v| set[f] >> v & 1 == 1);
        positions(rule.i).all(|v| positions(rule.j).any(|u| sheet.allows(rule, v, u)))
            && positions(rule.j).all(|u| positions(rule.i).any(|v| sheet.allows(rule, v, u)))
    });
    by_rules && sheet.triples.iter().all(|triple| closed_under(sheet, triple, set, fields, outside))
}

/// Whether every setting of these fields is in a row of three that the triple allows. A row has settings of the set in these fields, and
/// settings of the set `outside` in others.
pub fn closed_under(sheet: &Sheet, triple: &Triple, set: &Set, fields: &[usize], outside: &Set) -> bool {
    let inside = |f: usize| fields.contains(&f);
    let domain = |f: usize| if inside(f) { set[f] } else { outside[f] };
    let may_take = |f: usize| (0..sheet.settings[f].len()).filter(move |v| domain(f) >> v & 1 == 1);
    let mut rows = vec![];
    for (v, u) in may_take(triple.i).flat_map(|v| may_take(triple.j).map(move |u| (v, u))) {
        rows.extend(may_take(triple.k).map(|w| [v, u, w]).filter(|&row| sheet.allows_three(triple, row)));
    }
    let in_a_row = |place: usize, v: usize| rows.iter().any(|row| row[place] == v);
    triple.fields().into_iter().enumerate().all(|(place, f)| !inside(f) || may_take(f).all(|v| in_a_row(place, v)))
}

/// The definitions on one sheet. Which sets are closed over which fields is found once and remembered.
pub struct Definitions {
    every: Vec<usize>,
    /// The neighbourhood of each field.
    pub near: Vec<Vec<usize>>,
    /// The closed sets over every field and over each neighbourhood.
    closed: BTreeMap<Vec<usize>, Vec<Set>>,
}

impl Definitions {
    /// Under a triple, a field outside of a neighbourhood may take any setting of the sheet, struck or not.
    pub fn of(sheet: &Sheet) -> Definitions {
        Definitions::with_outside(sheet, &every_setting(sheet))
    }

    /// The same where a field outside may take only settings of a set. The papers say otherwise: it serves to count where that decides.
    pub fn with_outside(sheet: &Sheet, outside: &Set) -> Definitions {
        let every: Vec<usize> = (0..sheet.fields()).collect();
        let near: Vec<Vec<usize>> = every.iter().map(|&f| near(sheet, f)).collect();
        let full = every_setting(sheet);
        let over = |fields: &Vec<usize>| subsets(&restricted(&full, fields)).filter(|set| closed(sheet, set, fields, outside)).collect();
        let mut closed: BTreeMap<Vec<usize>, Vec<Set>> = BTreeMap::new();
        for fields in near.iter().chain([&every]) {
            closed.entry(fields.clone()).or_insert_with(|| over(fields));
        }
        Definitions { every, near, closed }
    }

    /// The closed subsets of a set, over these fields.
    fn closed_subsets<'a>(&'a self, set: &'a Set, fields: &[usize]) -> impl Iterator<Item = Set> + 'a {
        self.closed[fields].iter().filter(|closed| includes(set, closed)).copied()
    }

    /// The largest closed subset.
    pub fn closing(&self, set: &Set) -> Set {
        largest(self.closed_subsets(set, &self.every))
    }

    /// What the test of a setting of the set leaves in the neighbourhood, where it passes.
    pub fn left(&self, set: &Set, f: usize, v: usize) -> Option<Set> {
        let near = &self.near[f];
        let mut cut = restricted(set, near);
        cut[f] = 1 << v;
        let closed = largest(self.closed_subsets(&cut, near));
        near.iter().all(|&g| closed[g] != 0).then_some(closed)
    }

    /// Whether every setting of a field passes its test in the set.
    fn all_pass(&self, set: &Set, f: usize) -> bool {
        (0..MOST).filter(|v| set[f] >> v & 1 == 1).all(|v| self.left(set, f, v).is_some())
    }

    /// Offers by 01: the largest subset in which every setting passes its test in that subset.
    pub fn offers(&self, set: &Set) -> Set {
        largest(subsets(set).filter(|subset| self.every.iter().all(|&f| self.all_pass(subset, f))))
    }

    /// What one round of tests leaves: the closed subset without the settings that fail in it, closed again.
    pub fn tested_once(&self, set: &Set) -> Set {
        let closed = self.closing(set);
        let mut passing = closed;
        for (f, v) in settings_of(&closed).into_iter().filter(|&(f, v)| self.left(&closed, f, v).is_none()) {
            passing[f] &= !(1 << v);
        }
        self.closing(&passing)
    }

    /// Offers by request 7 of 02, for any mask of selected fields: the largest subset that is closed and in which every setting of a
    /// selected field passes its test.
    pub fn offers_of_selections(&self, set: &Set) -> impl Fn(u32) -> Set {
        let passing = |subset: &Set| self.every.iter().filter(|&&f| self.all_pass(subset, f)).map(|f| 1 << f).sum::<u32>();
        let closed: Vec<(Set, u32)> = self.closed_subsets(set, &self.every).map(|subset| (subset, passing(&subset))).collect();
        move |selected| largest(closed.iter().filter(|(_, passing)| passing & selected == selected).map(|(subset, _)| *subset))
    }
}
