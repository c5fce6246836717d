//! Closing by AC-4, as the proved engines do it: the counts and the support sets of Figure 2 of source document 004 are made once, and one
//! setting is taken from the list a turn. Triples are revised where the list is empty.
//!
//! A count is kept in binary, and the counts of all settings towards a field are sets, one for each digit. So lowering the counts of a
//! support set by one is a subtraction digit by digit, for all settings of a field at once and for the fields side by side.

use super::closing::Closing;
use super::network::{members, Network};
use super::tables::Tables;
use super::triple_tables::losing;
use crate::{Domains, Offers, MOST};

/// The binary digits of a count, which is at most 24.
const DIGITS: usize = 5;

/// The counts towards a field j: digit k of Counter[(i, j), a] is bit a of word i of set k.
type Counts = [Domains; DIGITS];

/// The tables, and the data of the figure but D.
pub struct Ac4 {
    tables: Tables,
    /// S_jb: word i has the settings of field i that (j, b) supports.
    support: Box<[[Domains; MOST]; MOST]>,
    /// Counter, of each field j.
    counter: Box<[Counts; MOST]>,
    /// The counts of a test. They are equal to the main ones between tests.
    copy: Box<[Counts; MOST]>,
    list: List,
    /// How many words of a set are used: one for each field, in fours.
    wide: usize,
}

impl Default for Ac4 {
    fn default() -> Ac4 {
        Ac4 {
            tables: Tables::default(),
            support: Box::new([[[0; MOST]; MOST]; MOST]),
            counter: Box::new([[[0; MOST]; DIGITS]; MOST]),
            copy: Box::new([[[0; MOST]; DIGITS]; MOST]),
            list: List { places: [0; MOST * MOST], head: 0, tail: 0 },
            wide: MOST,
        }
    }
}

/// listAC: the settings at the places from head to tail, each by 24 times its field and its position. A setting enters once, so there is a
/// place for each.
struct List {
    places: [u32; MOST * MOST],
    head: usize,
    tail: usize,
}

impl List {
    fn clear(&mut self) {
        (self.head, self.tail) = (0, 0);
    }

    #[inline(always)]
    fn enter(&mut self, f: usize, settings: u32) {
        for v in members(settings) {
            self.places[self.tail] = (f * MOST + v) as u32;
            self.tail += 1;
        }
    }

    #[inline(always)]
    fn take(&mut self) -> Option<(usize, usize)> {
        if self.head == self.tail {
            return None;
        }
        let setting = self.places[self.head] as usize;
        self.head += 1;
        Some((setting / MOST, setting % MOST))
    }
}

/// Lines 3 and 4 of pruneAC, for s = S_jb and the counts towards j: each count less one, where what a digit lacks is taken from the next.
/// `none` gets the settings of s that are still there and whose count is 0 now; true where there are any.
#[inline(always)]
fn lower(counts: &mut Counts, s: &Domains, domains: &Domains, none: &mut Domains, wide: usize) -> bool {
    let [c0, c1, c2, c3, c4] = counts.each_mut().map(|set| &mut set[..wide]);
    let (s, domains, none) = (&s[..wide], &domains[..wide], &mut none[..wide]);
    let mut any = 0;
    for i in 0..wide {
        c0[i] ^= s[i];
        let s1 = s[i] & c0[i];
        c1[i] ^= s1;
        let s2 = s1 & c1[i];
        c2[i] ^= s2;
        let s3 = s2 & c2[i];
        c3[i] ^= s3;
        c4[i] ^= s3 & c3[i];
        none[i] = s[i] & domains[i] & !(c0[i] | c1[i] | c2[i] | c3[i] | c4[i]);
        any |= none[i];
    }
    any != 0
}

/// Line 6 of initializeAC, for s = S_jb and the counts towards j: each count and one more.
#[inline(always)]
fn raise(counts: &mut Counts, s: &Domains, wide: usize) {
    let [c0, c1, c2, c3, c4] = counts.each_mut().map(|set| &mut set[..wide]);
    let s = &s[..wide];
    for i in 0..wide {
        let s1 = s[i] & c0[i];
        c0[i] ^= s[i];
        let s2 = s1 & c1[i];
        c1[i] ^= s1;
        let s3 = s2 & c2[i];
        c2[i] ^= s2;
        c4[i] ^= s3 & c3[i];
        c3[i] ^= s3;
    }
}

/// Lines 6 to 8 of pruneAC, 9 to 11 of initializeAC: takes the settings of `none`, in these fields, from D and puts them on the list. The
/// fields that lost settings, or nothing where one has none left.
#[inline(always)]
fn move_out(domains: &mut Domains, none: &Domains, fields: u32, list: &mut List) -> Option<u32> {
    let mut lost = 0;
    for i in members(fields) {
        if none[i] != 0 {
            domains[i] &= !none[i];
            if domains[i] == 0 {
                return None;
            }
            list.enter(i, none[i]);
            lost |= 1 << i;
        }
    }
    Some(lost)
}

/// What pruneAC did.
struct Pruned {
    /// The fields that lost settings, or nothing where one has none left.
    lost: Option<u32>,
    /// The fields towards which counts were lowered.
    lowered: u32,
}

/// What pruneAC reads.
struct Given<'a> {
    network: &'a Network,
    support: &'a [[Domains; MOST]; MOST],
    wide: usize,
    within: u32,
}

/// pruneAC: only settings of the fields `within` leave D.
#[inline(always)]
fn prune_ac(given: &Given, domains: &mut Domains, counter: &mut [Counts; MOST], list: &mut List) -> Pruned {
    let mut none = [0; MOST];
    let (mut lost, mut lowered) = (0, 0);
    while let Some((j, b)) = list.take() {
        lowered |= 1 << j;
        if lower(&mut counter[j], &given.support[j][b], domains, &mut none, given.wide) {
            let Some(more) = move_out(domains, &none, given.network.joined[j] & given.within, list) else {
                return Pruned { lost: None, lowered };
            };
            lost |= more;
        }
    }
    Pruned { lost: Some(lost), lowered }
}

/// Revises the triples of `due` until one takes settings away, which go to the list. The fields that lost them, or nothing where one has
/// none left.
fn revise(given: &Given, domains: &mut Domains, list: &mut List, due: &mut u32) -> Option<u32> {
    let triples = &given.network.triples;
    while *due != 0 {
        let t = due.trailing_zeros() as usize;
        *due &= *due - 1;
        let lost = triples.revise(t, domains, given.within)?;
        let fields = losing(&lost);
        if fields != 0 {
            lost.into_iter().for_each(|(f, gone)| list.enter(f, gone));
            *due |= triples.of(fields) & !(1 << t);
            return Some(fields);
        }
    }
    Some(0)
}

/// pruneAC, and the triples where the list is empty; of these only `due` may leave a setting without support.
#[inline(always)]
fn close(given: &Given, domains: &mut Domains, counter: &mut [Counts; MOST], list: &mut List, mut due: u32) -> Pruned {
    let (mut lost, mut lowered) = (0, 0);
    loop {
        let pruned = prune_ac(given, domains, counter, list);
        lowered |= pruned.lowered;
        let Some(more) = pruned.lost else { return Pruned { lost: None, lowered } };
        due |= given.network.triples.of(more);
        let Some(fields) = revise(given, domains, list, &mut due) else { return Pruned { lost: None, lowered } };
        lost |= more | fields;
        if fields == 0 {
            return Pruned { lost: Some(lost), lowered };
        }
    }
}

impl Ac4 {
    /// initializeAC, for the counts towards each field in turn.
    fn initialize_ac(&mut self, network: &Network, domains: &mut Domains) -> Option<()> {
        self.list.clear();
        self.support[..network.fields].fill([[0; MOST]; MOST]);
        for j in 0..network.fields {
            let counts = &mut self.counter[j];
            *counts = [[0; MOST]; DIGITS];
            for b in members(domains[j]) {
                let s = &mut self.support[j][b];
                for i in members(network.joined[j]) {
                    s[i] = self.tables.rows(j, i)[b] & domains[i];
                }
                raise(counts, s, self.wide);
            }
            let none = std::array::from_fn(|i| domains[i] & !counts.iter().fold(0, |counted, set| counted | set[i]));
            move_out(domains, &none, network.joined[j], &mut self.list)?;
        }
        Some(())
    }

    /// Makes the counts of tests equal to the main ones towards these fields.
    fn copy_again(&mut self, fields: u32) {
        for j in members(fields) {
            self.copy[j] = self.counter[j];
        }
    }
}

impl Closing for Ac4 {
    fn load(&mut self, numbers: &[u32], network: &mut Network) {
        self.tables.load(numbers, network);
        self.wide = network.fields.next_multiple_of(4);
    }

    fn start(&mut self, network: &Network, domains: &mut Domains) -> Option<()> {
        self.initialize_ac(network, domains)?;
        let given = Given { network, support: &self.support, wide: self.wide, within: network.all() };
        close(&given, domains, &mut self.counter, &mut self.list, network.triples.all()).lost?;
        self.copy_again(network.all());
        Some(())
    }

    fn test(&mut self, network: &Network, domains: &Domains, f: usize, v: usize) -> Offers {
        let mut cut = *domains;
        cut[f] = 1 << v;
        self.list.clear();
        self.list.enter(f, domains[f] & !(1 << v));
        let given = Given { network, support: &self.support, wide: self.wide, within: network.hood[f] };
        let pruned = close(&given, &mut cut, &mut self.copy, &mut self.list, network.triples.of(1 << f));
        self.copy_again(pruned.lowered);
        pruned.lost.map(|_| cut)
    }

    fn removed(&mut self, network: &Network, domains: &mut Domains, f: usize, v: usize) -> Option<u32> {
        self.list.clear();
        self.list.enter(f, 1 << v);
        let given = Given { network, support: &self.support, wide: self.wide, within: network.all() };
        let pruned = close(&given, domains, &mut self.counter, &mut self.list, network.triples.of(1 << f));
        self.copy_again(pruned.lowered);
        pruned.lost
    }
}
