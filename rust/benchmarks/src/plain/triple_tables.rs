//! Triples with a table for each: for positions of its first and its second field the positions of the third that are allowed beside them.

use super::network::members;
use crate::{Domains, MOST, MOST_TRIPLES};

/// A place for each triple.
const PLACES: usize = MOST_TRIPLES as usize;

/// Three fields, each with the settings that it lost.
pub type Lost = [(usize, u32); 3];

/// Those that lost settings.
#[inline(always)]
pub fn losing(lost: &Lost) -> u32 {
    lost.iter().fold(0, |fields, &(f, gone)| fields | u32::from(gone != 0) << f)
}

/// Row a has for each position b of the second field the mask of the third.
type Table = [[u32; MOST]; MOST];

/// The triples of a sheet, and its settings. The tables are made once and filled anew for each sheet.
pub struct Triples {
    count: usize,
    fields: [[usize; 3]; PLACES],
    tables: Box<[Table; PLACES]>,
    /// For each field the mask of its triples.
    of: [u32; MOST],
    /// For each field the mask of its settings.
    full: Domains,
}

impl Default for Triples {
    fn default() -> Triples {
        let tables = Box::new([[[0; MOST]; MOST]; PLACES]);
        Triples { count: 0, fields: [[0; 3]; PLACES], tables, of: [0; MOST], full: [0; MOST] }
    }
}

impl Triples {
    /// Takes the numbers after the rules of an accepted list: none, or a count and so many triples. More may follow, after a count of 0
    /// too.
    pub fn load(&mut self, settings: &[&[u32]; MOST], numbers: &[u32]) {
        let count = numbers.first().map_or(0, |&count| count as usize);
        self.count = count;
        self.of = [0; MOST];
        if count == 0 {
            return;
        }
        self.full = settings.map(|settings| (1 << settings.len()) - 1);
        for (t, triple) in numbers[1..].chunks_exact(4).take(count).enumerate() {
            let fields = [triple[0], triple[1], triple[2]].map(|f| f as usize);
            fill(&mut self.tables[t], fields.map(|f| settings[f]), triple[3]);
            self.fields[t] = fields;
            fields.into_iter().for_each(|f| self.of[f] |= 1 << t);
        }
    }

    /// The mask of every triple.
    pub fn all(&self) -> u32 {
        ((1u64 << self.count) - 1) as u32
    }

    /// The triples of some fields.
    #[inline(always)]
    pub fn of(&self, fields: u32) -> u32 {
        members(fields).fold(0, |triples, f| triples | self.of[f])
    }

    /// For each field the fields that a triple puts beside it.
    pub fn beside(&self) -> [u32; MOST] {
        let mut beside = [0; MOST];
        for fields in &self.fields[..self.count] {
            let mask = fields.iter().fold(0, |mask, f| mask | 1 << f);
            fields.iter().for_each(|&f| beside[f] |= mask & !(1 << f));
        }
        beside
    }

    /// Revises the fields of a triple that are within a mask, where the others may take any setting. The fields, and of each the settings
    /// that it lost, or nothing where one has none left.
    #[inline]
    pub fn revise(&self, t: usize, domains: &mut Domains, within: u32) -> Option<Lost> {
        let fields = self.fields[t];
        let given = fields.map(|f| if within >> f & 1 == 1 { domains[f] } else { self.full[f] });
        let left = left(&self.tables[t], given);
        let mut lost = [(0, 0); 3];
        for place in 0..3 {
            let f = fields[place];
            if within >> f & 1 == 1 {
                if left[place] == 0 {
                    return None;
                }
                domains[f] = left[place];
                lost[place] = (f, given[place] & !left[place]);
            }
        }
        Some(lost)
    }
}

/// Fills the table of a triple of fields with these settings.
fn fill(table: &mut Table, [first, second, third]: [&[u32]; 3], c: u32) {
    for (row, p) in table.iter_mut().zip(first) {
        for (mask, q) in row.iter_mut().zip(second) {
            *mask = third.iter().enumerate().fold(0, |mask, (w, r)| mask | u32::from((p + r).abs_diff(2 * q) <= c) << w);
        }
    }
}

/// What is left of three domains: the settings that are in a row of three that the table allows. A position of the first field is done
/// with once it is in such a row and nothing is missing of the other two.
#[inline(always)]
fn left(table: &Table, [first, second, third]: [u32; 3]) -> [u32; 3] {
    let mut left = [0; 3];
    for a in members(first) {
        for b in members(second) {
            let allowed = table[a][b] & third;
            if allowed != 0 {
                left = [left[0] | 1 << a, left[1] | 1 << b, left[2] | allowed];
                if left[1] == second && left[2] == third {
                    break;
                }
            }
        }
    }
    left
}
