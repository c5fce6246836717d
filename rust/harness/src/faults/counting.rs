//! SAC-1 over AC-4 with a fault: Figure 2 of source document 004 in plain numbers. Triples are asked where the removal list is empty.

use super::page::Page;
use super::triples::{neighbours, Asked};
use super::Fault;
use super::How::Offers;
use solver::{Network, Set, Sheet, MOST};
use std::collections::{BTreeMap, VecDeque};

pub static ROWS: &[Fault] = &[
    Fault {
        name: "counts_struck",
        promise: "6.8",
        says: "A count starts too high: allowed partners are counted although they are struck or another is chosen.",
        how: Offers(|page| counted(page, Variation::CountsStruck)),
    },
    Fault {
        name: "dropped_unlisted",
        promise: "6.8",
        says: "A setting that has no support when the counts are made is dropped, but not put on the removal list.",
        how: Offers(|page| counted(page, Variation::DroppedUnlisted)),
    },
    Fault {
        name: "listed_twice",
        promise: "6.8",
        says: "A setting that is gone enters the removal list again where another of its counts becomes 0.",
        how: Offers(|page| counted(page, Variation::ListedTwice)),
    },
    Fault {
        name: "list_left_early",
        promise: "6.7",
        says: "The removal list is left after its first setting.",
        how: Offers(|page| counted(page, Variation::ListLeftEarly)),
    },
    Fault {
        name: "test_counts_kept",
        promise: "6.8",
        says: "The counts of a test are kept for the main ones.",
        how: Offers(|page| counted(page, Variation::TestCountsKept)),
    },
    Fault {
        name: "one_way",
        promise: "3.5",
        says: "A rule is used from its field i alone.",
        how: Offers(|page| counted(page, Variation::OneWay)),
    },
];

/// What is done otherwise than in the figure, or otherwise asked of triples.
#[derive(Clone, Copy, Debug, PartialEq, Eq)]
pub enum Variation {
    CountsStruck,
    DroppedUnlisted,
    ListedTwice,
    ListLeftEarly,
    TestCountsKept,
    OneWay,
    MiddleOnce,
    AnySumAbove,
    AnySumBelow,
    TriplesNotNear,
    OutsideIgnored,
    OutsideInSet,
    OutsideNotStruck,
}

/// The offers of a page with a fault.
pub(super) fn counted(page: &Page, fault: Variation) -> Option<Set> {
    Some(offers(&page.sheet, &page.network, page.unclosed, &page.visited, Some(fault)))
}

/// A field and a position.
type Setting = (usize, usize);

/// The places of the bits of a mask.
pub(super) fn positions(mask: u32) -> impl Iterator<Item = usize> {
    (0..MOST).filter(move |v| mask >> v & 1 == 1)
}

/// The mask of a field's neighbourhood.
fn neighbourhood(network: &Network, reach: u32, f: usize) -> u32 {
    let every = (1 << network.fields()) - 1;
    let wider = |near: u32| positions(every).filter(|&g| positions(near).any(|h| h == g || network.joined(h, g))).map(|g| 1 << g).sum();
    if reach == 24 {
        every
    } else {
        (0..reach).fold(1 << f, |near, _| wider(near))
    }
}

/// What closing alters: the set, Counter[(i, j), a] and the removal list.
#[derive(Clone)]
struct State {
    set: Set,
    counter: BTreeMap<(usize, usize, usize), i32>,
    list: VecDeque<Setting>,
}

impl State {
    /// Takes a setting from the set and puts it on the list.
    fn move_out(&mut self, (f, v): Setting) {
        self.set[f] &= !(1 << v);
        self.list.push_back((f, v));
    }
}

/// A sheet with the support sets of its settings, and the fault; none is no fault.
struct Ac4<'a> {
    sheet: &'a Sheet,
    network: &'a Network,
    start: &'a Set,
    /// For each field the mask of its neighbourhood.
    near: Vec<u32>,
    support: BTreeMap<Setting, Vec<Setting>>,
    fault: Option<Variation>,
}

impl Ac4<'_> {
    fn has(&self, fault: Variation) -> bool {
        self.fault == Some(fault)
    }

    /// Makes the counts and the support sets.
    fn initialize_ac(&mut self, set: Set) -> State {
        let mut state = State { set, counter: [].into(), list: [].into() };
        for rule in &self.sheet.rules {
            let ways = if self.has(Variation::OneWay) { 1 } else { 2 };
            for (i, j) in [(rule.i, rule.j), (rule.j, rule.i)].into_iter().take(ways) {
                for a in positions(state.set[i]) {
                    let others = if self.has(Variation::CountsStruck) { self.network.full[j] } else { state.set[j] };
                    let allowed = |&b: &usize| if i == rule.i { self.sheet.allows(rule, a, b) } else { self.sheet.allows(rule, b, a) };
                    let partners: Vec<usize> = positions(others).filter(allowed).collect();
                    partners.iter().for_each(|&b| self.support.entry((j, b)).or_default().push((i, a)));
                    if partners.is_empty() && self.has(Variation::DroppedUnlisted) {
                        state.set[i] &= !(1 << a);
                    } else if partners.is_empty() {
                        state.move_out((i, a));
                    } else {
                        state.counter.insert((i, j, a), partners.len() as i32);
                    }
                }
            }
        }
        state
    }

    /// Closes: empties the list and drops what triples do not support, until neither is left to do.
    fn close(&self, state: &mut State, within: u32) {
        let asked = Asked { sheet: self.sheet, full: &self.network.full, start: self.start, within, fault: self.fault };
        loop {
            self.prune_ac(state, within);
            let unsupported = asked.unsupported(&state.set);
            if unsupported.is_empty() {
                return;
            }
            unsupported.into_iter().for_each(|setting| state.move_out(setting));
        }
    }

    /// Empties the list. Only settings of the fields `within` are dropped.
    fn prune_ac(&self, state: &mut State, within: u32) {
        while let Some((j, b)) = state.list.pop_front() {
            for &(i, a) in self.support.get(&(j, b)).into_iter().flatten() {
                let count = state.counter.get_mut(&(i, j, a)).expect("a count for each setting of a support set");
                *count -= 1;
                let unmarked = state.set[i] >> a & 1 == 1 || self.has(Variation::ListedTwice);
                if *count == 0 && unmarked && within >> i & 1 == 1 {
                    state.move_out((i, a));
                }
            }
            if self.has(Variation::ListLeftEarly) {
                state.list.clear();
            }
        }
    }

    /// Whether a setting passes its test, on a copy.
    fn passes(&self, state: &mut State, (f, v): Setting) -> bool {
        let mut copy = state.clone();
        positions(state.set[f]).filter(|&a| a != v).for_each(|a| copy.move_out((f, a)));
        self.close(&mut copy, self.near[f]);
        let passed = !self.network.wiped_out(&copy.set);
        if self.has(Variation::TestCountsKept) {
            state.counter = copy.counter;
        }
        passed
    }
}

/// The offers of a start set.
pub fn offers(sheet: &Sheet, network: &Network, start: Set, visited: &[u8], fault: Option<Variation>) -> Set {
    let neighbours = neighbours(sheet, fault);
    let near = (0..sheet.fields()).map(|f| neighbourhood(&neighbours, sheet.reach, f)).collect();
    let mut ac4 = Ac4 { sheet, network, start: &start, near, support: [].into(), fault };
    let mut state = ac4.initialize_ac(start);
    ac4.close(&mut state, sheet.all_fields());
    loop {
        let before = state.set;
        for f in visited.iter().map(|&f| usize::from(f)) {
            for v in positions(before[f]) {
                if state.set[f] >> v & 1 == 1 && !ac4.passes(&mut state, (f, v)) {
                    state.move_out((f, v));
                    ac4.close(&mut state, sheet.all_fields());
                }
            }
        }
        if state.set == before {
            return state.set;
        }
    }
}
