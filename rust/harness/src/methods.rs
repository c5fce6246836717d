//! SAC-2 and the queue method over the solver's definitions.

use solver::{Network, Set, MOST};
use std::collections::BTreeMap;

/// The set that a method leaves of a closed one, how many tests it makes, and how many of these fail, each with a removal.
pub struct Made {
    pub set: Set,
    pub tests: u64,
    pub removals: u64,
}

impl Made {
    fn of(set: Set) -> Made {
        Made { set, tests: 0, removals: 0 }
    }

    /// Tests a setting. Where it fails, it goes, and the whole set is closed again.
    fn test(&mut self, network: &Network, f: usize, v: usize) -> Option<Set> {
        let every: Vec<usize> = (0..network.fields()).collect();
        let left = network.left(&self.set, f, v);
        self.tests += 1;
        if left.is_none() {
            self.removals += 1;
            self.set[f] &= !(1 << v);
            self.set = network.closing(self.set, &every);
        }
        left
    }
}

/// What SAC-2 makes of a closed set. It passes over the visited fields until nothing changes, closes after each removal, and stops where a
/// field is empty. A setting that passed is tested again unless `trusted` holds of the set and what its last test left.
pub fn sac2(network: &Network, set: Set, visited: &[u8], trusted: fn(&Set, &Set) -> bool) -> Made {
    let settings: Vec<(usize, usize)> = visited.iter().flat_map(|&f| (0..MOST).map(move |v| (f.into(), v))).collect();
    let mut remembered: BTreeMap<(usize, usize), Set> = BTreeMap::new();
    let (mut made, mut changed) = (Made::of(set), true);
    while changed {
        changed = false;
        for &(f, v) in &settings {
            if network.wiped_out(&made.set) {
                return made;
            }
            if made.set[f] >> v & 1 == 0 || remembered.get(&(f, v)).is_some_and(|left| trusted(&made.set, left)) {
                continue;
            }
            match made.test(network, f, v) {
                Some(left) => drop(remembered.insert((f, v), left)),
                None => changed = true,
            }
        }
    }
    made
}

/// What the queue method makes of a closed set that is not wiped out. Fields on the queue are visited in rounds of the order; after a visit
/// each field that lost settings puts back the other fields of its neighbourhood, at reach 24 every field.
pub fn queued(network: &Network, set: Set, order: &[u8], reach: u32) -> Made {
    let mut made = Made::of(set);
    let mut queue: Vec<usize> = order.iter().map(|&f| f.into()).collect();
    while !queue.is_empty() {
        for f in order.iter().map(|&f| usize::from(f)) {
            let Some(place) = queue.iter().position(|&g| g == f) else { continue };
            queue.swap_remove(place);
            let before = made.set;
            for v in (0..MOST).filter(|v| before[f] >> v & 1 == 1) {
                if made.set[f] >> v & 1 == 1 {
                    made.test(network, f, v);
                }
            }
            let lost: Vec<usize> = (0..network.fields()).filter(|&g| made.set[g] != before[g]).collect();
            let back = |g: &usize| lost.iter().any(|&h| reach == 24 || h != *g && network.near(h).contains(g));
            let others: Vec<usize> = (0..network.fields()).filter(|g| !queue.contains(g)).filter(back).collect();
            queue.extend(others);
        }
    }
    made
}
