//! What the ways of closing share. All but AC-4 are AC-3 with a mask of the changed fields. Triples are revised where the rules are closed.

use super::network::Network;
use super::triple_tables::losing;
use crate::{Domains, Offers, MOST};

/// A way to close a set, with its tables.
pub trait Closing: Default {
    /// Fills the tables and the network from an accepted list of numbers.
    fn load(&mut self, numbers: &[u32], network: &mut Network);

    /// Closes the start set over every field; nothing where a field has no setting left.
    fn start(&mut self, network: &Network, domains: &mut Domains) -> Option<()>;

    /// The singleton test: closes what is left when f is cut to v, over the neighbourhood of f. What it left, or nothing where it fails.
    fn test(&mut self, network: &Network, domains: &Domains, f: usize, v: usize) -> Offers;

    /// Closes again over every field after v was removed from f, where f has other settings. The fields that lost settings, or nothing
    /// where one has none left.
    fn removed(&mut self, network: &Network, domains: &mut Domains, f: usize, v: usize) -> Option<u32>;
}

/// A way to close a set by AC-3.
pub trait Ac3: Default {
    /// Fills the tables and the network from an accepted list of numbers.
    fn load(&mut self, numbers: &[u32], network: &mut Network);

    /// Closes the set under the rules over the fields of `within`, where only the fields of `changed` may leave a setting without support.
    /// The fields that lost settings, or nothing where one has none left.
    fn close(&self, network: &Network, domains: &mut Domains, within: u32, changed: u32) -> Option<u32>;

    /// The same under rules and triples, where of these only `due` may leave a setting without support.
    fn close_all(&self, network: &Network, domains: &mut Domains, within: u32, changed: u32, mut due: u32) -> Option<u32> {
        let mut touched = self.close(network, domains, within, changed)?;
        due |= network.triples.of(touched);
        while due != 0 {
            let t = due.trailing_zeros() as usize;
            due &= due - 1;
            let lost = network.triples.revise(t, domains, within)?;
            let fields = losing(&lost);
            if fields != 0 {
                due |= network.triples.of(fields) & !(1 << t);
                let more = self.close(network, domains, within, fields)?;
                due |= network.triples.of(more);
                touched |= fields | more;
            }
        }
        Some(touched)
    }
}

impl<C: Ac3> Closing for C {
    fn load(&mut self, numbers: &[u32], network: &mut Network) {
        Ac3::load(self, numbers, network);
    }

    fn start(&mut self, network: &Network, domains: &mut Domains) -> Option<()> {
        self.close_all(network, domains, network.all(), network.all(), network.triples.all()).map(|_| ())
    }

    #[inline]
    fn test(&mut self, network: &Network, domains: &Domains, f: usize, v: usize) -> Offers {
        let mut cut = *domains;
        cut[f] = 1 << v;
        self.close_all(network, &mut cut, network.hood[f], 1 << f, network.triples.of(1 << f))?;
        Some(cut)
    }

    fn removed(&mut self, network: &Network, domains: &mut Domains, f: usize, _: usize) -> Option<u32> {
        self.close_all(network, domains, network.all(), 1 << f, network.triples.of(1 << f))
    }
}

/// The changed fields. They are taken in sweeps: a field that changes behind the sweep waits for the next one.
pub struct Changed {
    sweep: u32,
    all: u32,
}

impl Changed {
    #[inline(always)]
    pub fn new(all: u32) -> Changed {
        Changed { sweep: 0, all }
    }

    #[inline(always)]
    pub fn add(&mut self, fields: u32) {
        self.all |= fields;
    }

    #[inline(always)]
    pub fn take(&mut self) -> Option<usize> {
        if self.sweep == 0 {
            self.sweep = self.all;
        }
        if self.sweep == 0 {
            return None;
        }
        let g = self.sweep.trailing_zeros() as usize;
        self.sweep &= self.sweep - 1;
        self.all &= !(1 << g);
        Some(g)
    }
}

/// The mask of each position alone.
pub const BITS: [u32; MOST] = {
    let mut bits = [0; MOST];
    let mut v = 0;
    while v < MOST {
        bits[v] = 1 << v;
        v += 1;
    }
    bits
};

/// For each position a word of ones where the mask has it, else 0. Not inlined, because alone it is compiled to vectors.
#[inline(never)]
pub fn spread(mask: u32, words: &mut [u32; MOST]) {
    for (word, bit) in words.iter_mut().zip(BITS) {
        *word = if mask & bit != 0 { u32::MAX } else { 0 };
    }
}
