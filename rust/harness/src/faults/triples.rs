//! Faults in using triples.

use super::counting::{counted, positions, Variation};
use super::Fault;
use super::How::Offers;
use solver::{Network, Set, Sheet, Triple};

pub static ROWS: &[Fault] = &[
    Fault {
        name: "middle_once",
        promise: "3.4",
        says: "p + r is compared with q, not with 2 q.",
        how: Offers(|page| counted(page, Variation::MiddleOnce)),
    },
    Fault {
        name: "any_sum_above",
        promise: "3.4",
        says: "A triple allows every p + r above 2 q.",
        how: Offers(|page| counted(page, Variation::AnySumAbove)),
    },
    Fault {
        name: "any_sum_below",
        promise: "3.4",
        says: "A triple allows every p + r below 2 q.",
        how: Offers(|page| counted(page, Variation::AnySumBelow)),
    },
    Fault {
        name: "triples_not_near",
        promise: "5.3",
        says: "A triple does not make its fields neighbours.",
        how: Offers(|page| counted(page, Variation::TriplesNotNear)),
    },
    Fault {
        name: "outside_ignored",
        promise: "5.4",
        says: "A triple is ignored where a field of it is outside the neighbourhood.",
        how: Offers(|page| counted(page, Variation::OutsideIgnored)),
    },
    Fault {
        name: "outside_in_set",
        promise: "5.4",
        says: "A partner in a field outside the neighbourhood must be in the set.",
        how: Offers(|page| counted(page, Variation::OutsideInSet)),
    },
    Fault {
        name: "outside_not_struck",
        promise: "5.4",
        says: "A partner in a field outside the neighbourhood must not be struck.",
        how: Offers(|page| counted(page, Variation::OutsideNotStruck)),
    },
];

/// Whether a triple allows these positions of its fields.
fn allowed(sheet: &Sheet, triple: &Triple, positions: [usize; 3], fault: Option<Variation>) -> bool {
    let setting = |place: usize| sheet.settings[triple.fields()[place]][positions[place]];
    let (sum, middle) = (setting(0) + setting(2), setting(1));
    match fault {
        Some(Variation::MiddleOnce) => sum.abs_diff(middle) <= triple.c,
        Some(Variation::AnySumAbove) => sum + triple.c >= 2 * middle,
        Some(Variation::AnySumBelow) => sum <= 2 * middle + triple.c,
        _ => sheet.allows_three(triple, positions),
    }
}

/// What closing over the fields of a mask asks of triples, with a fault; none is no fault.
pub struct Asked<'a> {
    pub sheet: &'a Sheet,
    /// Every setting of the sheet.
    pub full: &'a Set,
    /// What the decisions leave.
    pub start: &'a Set,
    pub within: u32,
    pub fault: Option<Variation>,
}

impl Asked<'_> {
    fn inside(&self, f: usize) -> bool {
        self.within >> f & 1 == 1
    }

    /// The settings of a field that may be partners.
    fn partners(&self, set: &Set, f: usize) -> u32 {
        match self.fault {
            _ if self.inside(f) => set[f],
            Some(Variation::OutsideInSet) => set[f],
            Some(Variation::OutsideNotStruck) => self.start[f],
            _ => self.full[f],
        }
    }

    /// The settings of a set, in the fields of the mask, that have no allowed pair of partners under some triple.
    pub fn unsupported(&self, set: &Set) -> Vec<(usize, usize)> {
        let mut found = vec![];
        for triple in &self.sheet.triples {
            let fields = triple.fields();
            if self.fault == Some(Variation::OutsideIgnored) && !fields.iter().all(|&f| self.inside(f)) {
                continue;
            }
            let mut supported = [0; 3];
            let may_take = fields.map(|f| self.partners(set, f));
            for (v, u) in positions(may_take[0]).flat_map(|v| positions(may_take[1]).map(move |u| (v, u))) {
                for w in positions(may_take[2]).filter(|&w| allowed(self.sheet, triple, [v, u, w], self.fault)) {
                    supported = [supported[0] | 1 << v, supported[1] | 1 << u, supported[2] | 1 << w];
                }
            }
            for (f, supported) in fields.into_iter().zip(supported).filter(|&(f, _)| self.inside(f)) {
                found.extend(positions(set[f] & !supported).map(|v| (f, v)));
            }
        }
        found.sort_unstable();
        found.dedup();
        found
    }
}

/// The network that says which fields are neighbours.
pub fn neighbours(sheet: &Sheet, fault: Option<Variation>) -> Network {
    let triples = if fault == Some(Variation::TriplesNotNear) { vec![] } else { sheet.triples.clone() };
    Network::of(&Sheet { triples, ..sheet.clone() })
}
