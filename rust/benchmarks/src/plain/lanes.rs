//! Closing with a table for each field: a row has a word for every other field, all ones where no rule joins it, and all neighbours of a
//! changed field are revised at once, each in its own lane. The unions of every subset of a group of values are in the table, so that no
//! branch is left.

use super::closing::{spread, Ac3, Changed, BITS};
use super::network::{most_settings, Network};
use crate::{Domains, MOST};

/// For at most LANES fields, with GROUP values to a group.
pub struct Lanes<const LANES: usize, const GROUP: usize> {
    unions: Box<[[u32; LANES]]>,
    /// The groups of a field.
    groups: usize,
}

impl<const LANES: usize, const GROUP: usize> Lanes<LANES, GROUP> {
    const SUBSETS: usize = 1 << GROUP;

    /// What the values of a changed field, in its domain, leave to every field.
    #[inline(always)]
    fn unite(&self, g: usize, domain: u32, union: &mut [u32; LANES]) {
        let size = self.groups * Self::SUBSETS;
        let mut left = domain as usize;
        for group in self.unions[g * size..][..size].chunks_exact(Self::SUBSETS) {
            add(union, &group[left % Self::SUBSETS]);
            left >>= GROUP;
        }
    }
}

impl<const LANES: usize, const GROUP: usize> Default for Lanes<LANES, GROUP> {
    fn default() -> Self {
        Lanes { unions: vec![[0; LANES]; LANES * MOST.div_ceil(GROUP) * Self::SUBSETS].into(), groups: 0 }
    }
}

impl<const LANES: usize, const GROUP: usize> Ac3 for Lanes<LANES, GROUP> {
    fn load(&mut self, numbers: &[u32], network: &mut Network) {
        let groups = most_settings(numbers).div_ceil(GROUP);
        self.groups = groups;
        let unions = &mut self.unions[..numbers[0] as usize * groups * Self::SUBSETS];
        unions.fill([u32::MAX; LANES]);
        network.read(numbers, |rule| {
            let place = |g: usize, v: usize| (g * groups + v / GROUP) * Self::SUBSETS + (1 << (v % GROUP));
            let forward = rule.forward();
            let turned = rule.turned(&forward);
            for v in 0..MOST.min(groups * GROUP) {
                unions[place(rule.i, v)][rule.j] = forward[v];
                unions[place(rule.j, v)][rule.i] = turned[v];
            }
        });
        unions.chunks_exact_mut(Self::SUBSETS).for_each(fill_subsets);
    }

    fn close(&self, _: &Network, domains: &mut Domains, within: u32, changed: u32) -> Option<u32> {
        let mut outside = [0; MOST];
        spread(!within, &mut outside);
        let outside: &[u32; LANES] = outside.first_chunk().expect("as many lanes");
        let lanes: &mut [u32; LANES] = domains.first_chunk_mut().expect("as many lanes");
        let mut touched = 0;
        let mut changed = Changed::new(changed);
        while let Some(g) = changed.take() {
            let mut union = *outside;
            self.unite(g, lanes[g], &mut union);
            let lost = narrow(lanes, &union)?;
            changed.add(lost);
            touched |= lost;
        }
        Some(touched)
    }
}

/// Fills the unions of a group, in which the single values stand.
fn fill_subsets<const LANES: usize>(group: &mut [[u32; LANES]]) {
    group[0] = [0; LANES];
    for subset in 1..group.len() {
        let rest = subset & (subset - 1);
        let first = group[subset ^ rest];
        let mut union = group[rest];
        add(&mut union, &first);
        group[subset] = union;
    }
}

#[inline(always)]
fn add<const LANES: usize>(union: &mut [u32; LANES], row: &[u32; LANES]) {
    for (word, more) in union.iter_mut().zip(row) {
        *word |= more;
    }
}

/// Cuts the domains to the unions. The fields that lost settings, or nothing where one has none left.
#[inline(always)]
fn narrow<const LANES: usize>(lanes: &mut [u32; LANES], union: &[u32; LANES]) -> Option<u32> {
    let mut lost = 0;
    let mut emptied = 0;
    for f in 0..LANES {
        let old = lanes[f];
        let new = old & union[f];
        lost |= if new != old { BITS[f] } else { 0 };
        emptied |= if new == 0 { old } else { 0 };
        lanes[f] = new;
    }
    (emptied == 0).then_some(lost)
}
