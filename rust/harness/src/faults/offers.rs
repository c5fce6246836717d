//! Faults of engines: what they close and test.

use super::counting::positions;
use super::page::{every, Page};
use super::Fault;
use super::How::Offers;
use crate::methods::sac2;
use solver::{Network, Set, Sheet};

pub static ROWS: &[Fault] = &[
    Fault { name: "only_closes", promise: "5.6", says: "The offers are the closed start set.", how: Offers(|page| Some(page.start)) },
    Fault {
        name: "start_unclosed",
        promise: "5.2",
        says: "The offers are the start set as it is.",
        how: Offers(|page| Some(page.unclosed)),
    },
    Fault {
        name: "one_pass",
        promise: "6.4",
        says: "Each setting is tested once.",
        how: Offers(|page| Some(one_pass(&page.network, page.start, &page.visited))),
    },
    Fault {
        name: "short_queue",
        promise: "6.2",
        says: "A removal puts back only the fields one rule away.",
        how: Offers(|page| (page.engine == 3).then(|| short_queue(&page.network, page.start, &page.visited))),
    },
    Fault {
        name: "stale_memory",
        promise: "6.5",
        says: "Engine 2 trusts what it remembers although a setting of it has gone.",
        how: Offers(|page| (page.engine == 2).then(|| sac2(&page.network, page.start, &page.visited, |_, _| true).set)),
    },
    Fault {
        name: "last_untested",
        promise: "6.3",
        says: "The last selected field of the order is not visited.",
        how: Offers(|page| page.offers(page.visited.last().map_or(0, |last| page.selected() & !(1 << last)))),
    },
    Fault {
        name: "short_reach",
        promise: "5.3",
        says: "The neighbourhoods are one rule too short.",
        how: Offers(|page| with_reach(page, if page.sheet.reach == 24 { 24 } else { (page.sheet.reach - 1).max(1) })),
    },
    Fault {
        name: "tests_whole_sheet",
        promise: "5.5",
        says: "A test keeps every field, rule and triple.",
        how: Offers(|page| with_reach(page, 24)),
    },
    Fault {
        name: "cut_as_it_is",
        promise: "5.9",
        says: "A setting passes only where the cut set is closed as it is.",
        how: Offers(|page| Some(testing(page, 1, |set, f, v| closed_as_it_is(&page.network, set, f, v)))),
    },
    Fault {
        name: "loses_two",
        promise: "4.2",
        says: "A setting that fails its test goes with the one above it.",
        how: Offers(|page| Some(testing(page, 3, |set, f, v| page.network.passes(set, f, v)))),
    },
    Fault {
        name: "positions_turned",
        promise: "4.1",
        says: "Bit 0 of an offer stands for the last position.",
        how: Offers(|page| page.offers(page.selected()).map(|offers| turned(&page.sheet, offers))),
    },
    Fault {
        name: "triples_not_asked",
        promise: "5.1",
        says: "Support under triples is not asked for.",
        how: Offers(|page| page.with(Sheet { triples: vec![], ..page.sheet.clone() }).offers(page.selected())),
    },
];

/// The positions of a field that fail a test.
pub(super) fn failing(set: &Set, f: usize, passes: impl Fn(&Set, usize, usize) -> bool) -> Vec<usize> {
    positions(set[f]).filter(|&v| !passes(set, f, v)).collect()
}

/// Makes passes over the visited fields until all of their settings pass. A removal is followed by closing, over some fields only.
pub(super) fn closing_few(network: &Network, mut set: Set, visited: &[u8], closed: &[usize]) -> Set {
    loop {
        let before = set;
        for f in visited.iter().map(|&f| f.into()) {
            for v in failing(&set, f, |set, f, v| network.passes(set, f, v)) {
                set[f] &= !(1 << v);
                set = network.closing(set, closed);
            }
        }
        if set == before {
            return set;
        }
    }
}

/// Makes passes over the visited fields until all of their settings pass. A setting that fails goes with others: `lost` is their mask,
/// shifted by its position.
fn testing(page: &Page, lost: u32, passes: impl Fn(&Set, usize, usize) -> bool) -> Set {
    let mut set = page.start;
    loop {
        let before = set;
        for f in page.visited.iter().map(|&f| f.into()) {
            failing(&set, f, &passes).into_iter().for_each(|v| set[f] &= !(lost << v));
            set = page.network.closing(set, &every(&page.network));
        }
        if set == before {
            return set;
        }
    }
}

/// Whether the set cut to a setting is closed over the neighbourhood.
fn closed_as_it_is(network: &Network, set: &Set, f: usize, v: usize) -> bool {
    let mut cut = *set;
    cut[f] &= 1 << v;
    network.closing(cut, network.near(f)) == cut
}

/// The offers where the sheet has another reach.
fn with_reach(page: &Page, reach: u32) -> Option<Set> {
    page.with(Sheet { reach, ..page.sheet.clone() }).offers(page.selected())
}

/// Masks in which the last position comes first.
fn turned(sheet: &Sheet, mut offers: Set) -> Set {
    for (mask, settings) in offers.iter_mut().zip(&sheet.settings) {
        *mask = mask.reverse_bits() >> (32 - settings.len());
    }
    offers
}

/// Tests each setting of the visited fields once, and closes after each removal.
pub fn one_pass(network: &Network, mut set: Set, visited: &[u8]) -> Set {
    for f in visited.iter().map(|&f| f.into()) {
        for v in failing(&set, f, |set, f, v| network.passes(set, f, v)) {
            set[f] &= !(1 << v);
            set = network.closing(set, &every(network));
        }
    }
    set
}

/// The queue method, where a removal puts back only those of the visited fields that are one rule away.
pub fn short_queue(network: &Network, mut set: Set, visited: &[u8]) -> Set {
    let visited: Vec<usize> = visited.iter().map(|&f| f.into()).collect();
    let mut queue = visited.clone();
    while !queue.is_empty() {
        let f = queue.remove(0);
        for v in failing(&set, f, |set, f, v| network.passes(set, f, v)) {
            set[f] &= !(1 << v);
            set = network.closing(set, &every(network));
            queue.extend(visited.iter().filter(|&&g| network.joined(f, g)));
        }
    }
    set
}
