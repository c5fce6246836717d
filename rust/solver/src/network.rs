//! Closing, testing and offering, straight from their definitions.

use crate::sheet::{Sheet, Triple};
use crate::MOST;

/// A set of settings: for each field a mask whose bit v means position v. Zeros past the last field.
pub type Set = [u32; MOST];

/// What closing and testing need of a sheet.
pub struct Network {
    /// For fields f and g joined by a rule: for each position of f, the mask of its allowed partners in g.
    partners: Vec<Vec<Option<Vec<u32>>>>,
    /// For each field its triples, turned to it.
    triples: Vec<Vec<Turned>>,
    neighbourhoods: Vec<Vec<usize>>,
    /// Every setting of the sheet.
    pub full: Set,
}

/// A triple turned to one of its fields.
struct Turned {
    /// The other two fields.
    others: [usize; 2],
    /// For each position of the field, for each position of the first other field: the mask of the allowed positions of the second.
    pairs: Vec<Vec<u32>>,
}

impl Turned {
    /// The triple turned to the field at this place in it.
    fn of(sheet: &Sheet, triple: &Triple, place: usize) -> Turned {
        let fields = triple.fields();
        let count = |at: usize| sheet.settings[fields[at]].len();
        let (first, second) = [(1, 2), (0, 2), (0, 1)][place];
        let allowed = |v: usize, u: usize, w: usize| {
            let mut positions = [v; 3];
            (positions[first], positions[second]) = (u, w);
            sheet.allows_three(triple, positions)
        };
        let pairs = (0..count(place)).map(|v| (0..count(first)).map(|u| mask(count(second), |w| allowed(v, u, w))).collect());
        Turned { others: [fields[first], fields[second]], pairs: pairs.collect() }
    }

    /// Whether a position of the field has an allowed pair of partners in the set.
    fn supports(&self, set: &Set, v: usize) -> bool {
        let [first, second] = self.others;
        positions(set[first]).any(|u| self.pairs[v][u] & set[second] != 0)
    }
}

/// The mask of the positions below the count that have a property.
fn mask(count: usize, has: impl Fn(usize) -> bool) -> u32 {
    (0..count).filter(|&v| has(v)).map(|v| 1 << v).sum()
}

/// Whether a set has every setting of another.
pub fn includes(set: &Set, part: &Set) -> bool {
    (0..MOST).all(|f| part[f] & !set[f] == 0)
}

/// The positions of a mask, rising.
fn positions(mut mask: u32) -> impl Iterator<Item = usize> {
    std::iter::from_fn(move || {
        let lowest = (mask != 0).then_some(mask.trailing_zeros());
        mask &= mask.wrapping_sub(1);
        lowest.map(|v| v as usize)
    })
}

impl Network {
    pub fn of(sheet: &Sheet) -> Network {
        let n = sheet.fields();
        let mut partners = vec![vec![None; n]; n];
        for rule in &sheet.rules {
            let (i, j) = (rule.i, rule.j);
            let (di, dj) = (sheet.settings[i].len(), sheet.settings[j].len());
            partners[i][j] = Some((0..di).map(|v| mask(dj, |u| sheet.allows(rule, v, u))).collect());
            partners[j][i] = Some((0..dj).map(|u| mask(di, |v| sheet.allows(rule, v, u))).collect());
        }
        let mut triples: Vec<Vec<Turned>> = (0..n).map(|_| vec![]).collect();
        for triple in &sheet.triples {
            triple.fields().into_iter().enumerate().for_each(|(place, f)| triples[f].push(Turned::of(sheet, triple, place)));
        }
        let mut full = [0; MOST];
        for (f, settings) in sheet.settings.iter().enumerate() {
            full[f] = (1 << settings.len()) - 1;
        }
        let mut network = Network { partners, triples, neighbourhoods: vec![], full };
        network.neighbourhoods = (0..n).map(|f| network.neighbourhood(f, sheet.reach)).collect();
        network
    }

    /// How many fields there are.
    pub fn fields(&self) -> usize {
        self.partners.len()
    }

    /// Whether a rule or a triple makes these fields neighbours.
    pub fn joined(&self, f: usize, g: usize) -> bool {
        self.partners[f][g].is_some() || self.triples[f].iter().any(|turned| turned.others.contains(&g))
    }

    /// The field and all at most `reach` rules or triples away; at reach 24 every field.
    fn neighbourhood(&self, f: usize, reach: u32) -> Vec<usize> {
        if reach == 24 {
            return (0..self.fields()).collect();
        }
        let mut near = vec![f];
        for _ in 0..reach {
            near = (0..self.fields()).filter(|&g| near.iter().any(|&h| h == g || self.joined(h, g))).collect();
        }
        near
    }

    /// The fields of a field's neighbourhood at the sheet's reach.
    pub fn near(&self, f: usize) -> &[usize] {
        &self.neighbourhoods[f]
    }

    /// Whether the setting has, under each rule that joins its field to one of these, an allowed partner in the set, and under each triple
    /// of its field an allowed pair of partners.
    fn supported(&self, set: &Set, fields: &[usize], f: usize, v: usize) -> bool {
        let by_rules = fields.iter().all(|&g| match &self.partners[f][g] {
            Some(rows) => rows[v] & set[g] != 0,
            None => true,
        });
        by_rules && self.triples[f].iter().all(|turned| turned.supports(set, v))
    }

    /// The largest subset of the set in which every setting of these fields keeps the property. The property must be one that a larger set
    /// keeps too; then what lacks it in a set lacks it in every subset, and losing such settings until there is none is right.
    fn largest(&self, mut set: Set, fields: &[usize], keeps: impl Fn(&Set, usize, usize) -> bool) -> Set {
        loop {
            let before = set;
            for &f in fields {
                for v in positions(set[f]) {
                    if !keeps(&set, f, v) {
                        set[f] &= !(1 << v);
                    }
                }
            }
            if set == before {
                return set;
            }
        }
    }

    /// The largest closed subset, with only these fields, the rules that join two of them and the triples of one or more of them. Under a
    /// triple, other fields may take any setting of the sheet. They stay as they are.
    pub fn closing(&self, mut set: Set, fields: &[usize]) -> Set {
        let mut with_all_others = self.full;
        fields.iter().for_each(|&f| with_all_others[f] = set[f]);
        let closed = self.largest(with_all_others, fields, |set, f, v| self.supported(set, fields, f, v));
        fields.iter().for_each(|&f| set[f] = closed[f]);
        set
    }

    /// What the test of a setting leaves in the fields of the neighbourhood, with 0 for the other fields; nothing where it fails.
    pub fn left(&self, set: &Set, f: usize, v: usize) -> Option<Set> {
        let near = self.near(f);
        let mut cut = [0; MOST];
        near.iter().for_each(|&g| cut[g] = set[g]);
        cut[f] &= 1 << v;
        let closed = self.closing(cut, near);
        near.iter().all(|&g| closed[g] != 0).then_some(closed)
    }

    /// The test of a setting in a set.
    pub fn passes(&self, set: &Set, f: usize, v: usize) -> bool {
        self.left(set, f, v).is_some()
    }

    /// The largest subset that is closed, over every field, rule and triple, and in which every setting of a selected field passes its
    /// test: request 7 of 02. Bit f of the mask means that field f is selected.
    pub fn offers(&self, set: Set, selected: u32) -> Set {
        let every: Vec<usize> = (0..self.fields()).collect();
        let tested = |f: usize| selected >> f & 1 == 1;
        self.largest(set, &every, |set, f, v| self.supported(set, &every, f, v) && (!tested(f) || self.passes(set, f, v)))
    }

    /// Whether some field is empty, selected or not.
    pub fn wiped_out(&self, set: &Set) -> bool {
        (0..self.fields()).any(|f| set[f] == 0)
    }
}
