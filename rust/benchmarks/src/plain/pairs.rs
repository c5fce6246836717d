//! Closing with a table for each pair of fields: the neighbours of a changed field are revised one after the other.

use super::closing::{spread, Ac3, Changed};
use super::network::{members, Network};
use super::tables::{Row, Tables};
use crate::{Domains, MOST};
use std::marker::PhantomData;

/// The domain of a changed field, in the form that a way of revising needs.
pub trait Changing: Default {
    fn change(&mut self, domain: u32);

    /// The union of the rows of the domain's values. None of them is past the first ROWS.
    fn union<const ROWS: usize>(&self, rows: &Row) -> u32;
}

/// With a branch for each value: the ordinary bit-parallel AC-3.
#[derive(Default)]
pub struct Branching {
    domain: u32,
}

impl Changing for Branching {
    #[inline(always)]
    fn change(&mut self, domain: u32) {
        self.domain = domain;
    }

    #[inline(always)]
    fn union<const ROWS: usize>(&self, rows: &Row) -> u32 {
        members(self.domain).fold(0, |union, v| union | rows[v])
    }
}

/// Without a branch, as the proved engines did before AC-4: each of the first 8 or 24 rows is cut by a word of ones or zeros.
#[derive(Default)]
pub struct BranchFree {
    words: Row,
}

impl Changing for BranchFree {
    #[inline(always)]
    fn change(&mut self, domain: u32) {
        spread(domain, &mut self.words);
    }

    /// Four rows are taken side by side.
    #[inline(always)]
    fn union<const ROWS: usize>(&self, rows: &Row) -> u32 {
        let mut union = [0; 4];
        for (rows, words) in rows[..ROWS].chunks_exact(4).zip(self.words.chunks_exact(4)) {
            for lane in 0..4 {
                union[lane] |= rows[lane] & words[lane];
            }
        }
        union[0] | union[1] | union[2] | union[3]
    }
}

/// The tables, with one way of revising.
#[derive(Default)]
pub struct Pairs<D> {
    tables: Tables,
    domain: PhantomData<D>,
}

impl<D: Changing> Pairs<D> {
    /// Revises the fields of `near`, neighbours of g. Those that lost settings, or nothing where one has none left.
    #[inline(always)]
    fn revise<const ROWS: usize>(&self, domains: &mut Domains, g: usize, changing: &D, near: u32) -> Option<u32> {
        let mut lost = 0;
        for f in members(near) {
            let old = domains[f];
            let new = old & changing.union::<ROWS>(self.tables.rows(g, f));
            if new != old {
                if new == 0 {
                    return None;
                }
                domains[f] = new;
                lost |= 1 << f;
            }
        }
        Some(lost)
    }
}

impl<D: Changing> Ac3 for Pairs<D> {
    fn load(&mut self, numbers: &[u32], network: &mut Network) {
        self.tables.load(numbers, network);
    }

    fn close(&self, network: &Network, domains: &mut Domains, within: u32, changed: u32) -> Option<u32> {
        let mut changing = D::default();
        let mut touched = 0;
        let mut changed = Changed::new(changed);
        while let Some(g) = changed.take() {
            changing.change(domains[g]);
            let near = network.joined[g] & within;
            let lost = if domains[g] < 256 {
                self.revise::<8>(domains, g, &changing, near)?
            } else {
                self.revise::<MOST>(domains, g, &changing, near)?
            };
            changed.add(lost);
            touched |= lost;
        }
        Some(touched)
    }
}
