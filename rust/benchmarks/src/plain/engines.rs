//! The three methods over any way of closing. They visit selected fields only; a removal closes the whole sheet again.

use super::closing::{Closing, BITS};
use super::network::{members, Network};
use super::Found;
use crate::task::Job;
use crate::{Domains, Offers, MOST};

/// A sheet's network and tables, with one way of closing.
#[derive(Default)]
pub struct Solver<C> {
    network: Network,
    closing: C,
}

/// For each setting what its last passed test left in the neighbourhood; the settings of a field stand together.
pub type Memory = Box<[[Domains; MOST]; MOST]>;

impl<C: Closing> Solver<C> {
    /// SAC-1: passes over the fields in the given order, until one changes nothing.
    pub fn sac1(&mut self, job: &Job) -> Found {
        let mut tests = 0;
        let offers = self.passes(job, |solver, domains, f, v| {
            tests += 1;
            solver.test(domains, f, v).is_some()
        });
        Found { offers, tests }
    }

    /// SAC-2: a setting is tested again only when the set has lost some of what its last test left in the neighbourhood.
    pub fn sac2(&mut self, memory: &mut Memory, job: &Job) -> Found {
        let mut tests = 0;
        let mut known = [0; MOST];
        let offers = self.passes(job, |solver, domains, f, v| {
            if known[f] & (1 << v) != 0 && holds(domains, &memory[f][v]) {
                return true;
            }
            tests += 1;
            let left = solver.test(domains, f, v);
            if let Some(left) = left {
                memory[f][v] = part(&left, solver.network.hood[f]);
                known[f] |= 1 << v;
            }
            left.is_some()
        });
        Found { offers, tests }
    }

    /// The queue method: only fields on the queue are visited, in the given order, and a removal puts fields back.
    pub fn queued(&mut self, job: &Job) -> Found {
        let mut tests = 0;
        let offers = self.drain(job, &mut tests);
        Found { offers, tests }
    }

    /// Builds the tables from the numbers, and closes the start set.
    fn begin(&mut self, job: &Job) -> Offers {
        self.closing.load(&job.numbers, &mut self.network);
        let mut domains = job.start;
        if domains[..self.network.fields].contains(&0) {
            return None;
        }
        self.closing.start(&self.network, &mut domains)?;
        Some(domains)
    }

    fn passes(&mut self, job: &Job, mut passes: impl FnMut(&mut Self, &Domains, usize, usize) -> bool) -> Offers {
        let mut domains = self.begin(job)?;
        let mut changed = true;
        while changed {
            changed = false;
            for f in job.order.iter().map(|&f| usize::from(f)).filter(|f| job.selected & (1 << f) != 0) {
                changed |= self.visit(&mut domains, f, |solver, domains, v| passes(solver, domains, f, v))? != 0;
            }
        }
        Some(domains)
    }

    fn drain(&mut self, job: &Job, tests: &mut u64) -> Offers {
        let mut domains = self.begin(job)?;
        let mut queue = job.selected;
        while queue != 0 {
            for f in job.order.iter().map(|&f| usize::from(f)) {
                if queue & (1 << f) == 0 {
                    continue;
                }
                queue &= !(1 << f);
                let touched = self.visit(&mut domains, f, |solver, domains, v| {
                    *tests += 1;
                    solver.test(domains, f, v).is_some()
                })?;
                queue |= put_back(&self.network, touched) & job.selected;
            }
        }
        Some(domains)
    }

    /// Removes each setting of f that does not pass. The fields that lost settings, or nothing where the set is wiped out.
    fn visit(&mut self, domains: &mut Domains, f: usize, mut passes: impl FnMut(&mut Self, &Domains, usize) -> bool) -> Option<u32> {
        let mut touched = 0;
        for v in members(domains[f]) {
            if domains[f] & (1 << v) != 0 && !passes(self, domains, v) {
                touched |= self.remove(domains, f, v)?;
            }
        }
        Some(touched)
    }

    #[inline]
    fn test(&mut self, domains: &Domains, f: usize, v: usize) -> Offers {
        self.closing.test(&self.network, domains, f, v)
    }

    /// Removes v from f and closes again over every field. The fields that lost settings, or nothing where the set is wiped out.
    fn remove(&mut self, domains: &mut Domains, f: usize, v: usize) -> Option<u32> {
        domains[f] &= !(1 << v);
        if domains[f] == 0 {
            return None;
        }
        let touched = self.closing.removed(&self.network, domains, f, v)?;
        Some(touched | 1 << f)
    }
}

/// The settings of some fields, with 0 for the other fields.
fn part(domains: &Domains, fields: u32) -> Domains {
    std::array::from_fn(|f| if fields & BITS[f] != 0 { domains[f] } else { 0 })
}

/// Whether the set has every setting of a part.
fn holds(domains: &Domains, part: &Domains) -> bool {
    (0..MOST).fold(0, |lost, f| lost | part[f] & !domains[f]) == 0
}

/// The fields to visit again: all at reach 24, otherwise the other fields of the neighbourhood of each field that lost settings.
fn put_back(network: &Network, touched: u32) -> u32 {
    if network.whole && touched != 0 {
        return network.all();
    }
    members(touched).fold(0, |back, g| back | network.hood[g] & !(1 << g))
}
