//! A sheet that was read, and what its rules allow.

use crate::ENCODER_TOLERANCE;

/// Each field's settings in micrometres, the reach, the rules and the triple rules.
#[derive(Clone, Debug, PartialEq, Eq)]
pub struct Sheet {
    pub settings: Vec<Vec<u32>>,
    pub reach: u32,
    pub rules: Vec<Rule>,
    pub triples: Vec<Triple>,
}

/// A rule of fields i and j: its kind, then a mask for each setting of i (kind 0) or c alone.
#[derive(Clone, Debug, PartialEq, Eq)]
pub struct Rule {
    pub i: usize,
    pub j: usize,
    pub kind: u32,
    pub numbers: Vec<u32>,
}

/// A triple rule of fields i, j and k with its number c: request 12 of 02.
#[derive(Clone, Copy, Debug, PartialEq, Eq)]
pub struct Triple {
    pub i: usize,
    pub j: usize,
    pub k: usize,
    pub c: u32,
}

impl Triple {
    /// Its fields, rising.
    pub fn fields(&self) -> [usize; 3] {
        [self.i, self.j, self.k]
    }
}

impl Sheet {
    /// How many fields there are.
    pub fn fields(&self) -> usize {
        self.settings.len()
    }

    /// The mask that selects every field.
    pub fn all_fields(&self) -> u32 {
        (1 << self.fields()) - 1
    }

    /// Whether a mask selects some field, and only fields of the sheet.
    pub fn selects(&self, selected: u32) -> bool {
        selected != 0 && selected & !self.all_fields() == 0
    }

    /// Whether the sheet has this field and this position in it.
    pub fn has(&self, field: u32, position: u32) -> bool {
        self.settings.get(field as usize).is_some_and(|settings| (position as usize) < settings.len())
    }

    /// Whether position v of the rule's first field may go with position u of its second.
    pub fn allows(&self, rule: &Rule, v: usize, u: usize) -> bool {
        let p = u64::from(self.settings[rule.i][v]);
        let q = u64::from(self.settings[rule.j][u]);
        let c = u64::from(rule.numbers[0]);
        match rule.kind {
            0 => rule.numbers[v] >> u & 1 == 1,
            1 => p >= q + c,
            2 => q >= p + c,
            3 => p.abs_diff(q) >= c,
            4 => p.abs_diff(q) <= c,
            5 => p.abs_diff(q).abs_diff(c) <= u64::from(ENCODER_TOLERANCE),
            kind => unreachable!("a sheet that was read has no kind {kind}"),
        }
    }

    /// Whether these positions of the triple's fields may go together: p + r and 2 q differ by at most c.
    pub fn allows_three(&self, triple: &Triple, [v, u, w]: [usize; 3]) -> bool {
        let p = u64::from(self.settings[triple.i][v]);
        let q = u64::from(self.settings[triple.j][u]);
        let r = u64::from(self.settings[triple.k][w]);
        (p + r).abs_diff(2 * q) <= u64::from(triple.c)
    }

    /// Whether these positions, one for each field, are a complete set-up: every rule and every triple allows them.
    pub fn complete(&self, positions: &[usize]) -> bool {
        self.rules.iter().all(|rule| self.allows(rule, positions[rule.i], positions[rule.j]))
            && self.triples.iter().all(|triple| self.allows_three(triple, triple.fields().map(|f| positions[f])))
    }
}
