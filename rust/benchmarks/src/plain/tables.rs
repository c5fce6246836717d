//! A table for each pair of fields that a rule joins.

use super::network::Network;
use crate::MOST;

pub type Row = [u32; MOST];

/// Places for 32 fields each way: a position in a mask of 32 bits needs no check of bounds.
const SIDE: usize = 32;

/// The rows of each pair of fields: row v of (g, f) has the positions of f that position v of g allows.
pub struct Tables {
    rows: Box<[Row; SIDE * SIDE]>,
}

impl Default for Tables {
    fn default() -> Tables {
        Tables { rows: Box::new([[0; MOST]; SIDE * SIDE]) }
    }
}

impl Tables {
    /// Fills the tables and the network from an accepted list of numbers.
    pub fn load(&mut self, numbers: &[u32], network: &mut Network) {
        network.read(numbers, |rule| {
            let rows = rule.forward();
            self.rows[rule.i * SIDE + rule.j] = rows;
            self.rows[rule.j * SIDE + rule.i] = rule.turned(&rows);
        });
    }

    /// The rows of (g, f), where a rule joins these fields.
    #[inline(always)]
    pub fn rows(&self, g: usize, f: usize) -> &Row {
        &self.rows[g % SIDE * SIDE + f % SIDE]
    }
}
