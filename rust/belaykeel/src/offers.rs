//! The offers of a sheet under the decisions in force.

use crate::raw::OFFERS_WORDS;
use std::fmt;

/// For each field of the sheet a mask whose bit v means that position v is offered.
#[derive(Clone, Copy, PartialEq, Eq)]
pub struct Offers {
    words: [u32; OFFERS_WORDS],
    fields: usize,
}

impl Offers {
    /// The first `fields` of these words.
    pub(crate) fn new(words: [u32; OFFERS_WORDS], fields: usize) -> Offers {
        let mut offers = Offers { words: [0; OFFERS_WORDS], fields };
        offers.words[..fields].copy_from_slice(&words[..fields]);
        offers
    }

    /// One mask for each field.
    pub fn masks(&self) -> &[u32] {
        &self.words[..self.fields]
    }

    /// How many fields there are.
    pub fn fields(&self) -> usize {
        self.fields
    }

    /// The positions offered in a field, rising; none for a field that is not on the sheet.
    pub fn positions(&self, field: usize) -> impl Iterator<Item = u32> {
        let mask = self.masks().get(field).copied().unwrap_or(0);
        (0..u32::BITS).filter(move |position| mask >> position & 1 == 1)
    }

    /// Whether a position of a field is offered.
    pub fn has(&self, field: usize, position: u32) -> bool {
        self.positions(field).any(|offered| offered == position)
    }
}

impl fmt::Debug for Offers {
    fn fmt(&self, formatter: &mut fmt::Formatter) -> fmt::Result {
        formatter.debug_tuple("Offers").field(&self.masks()).finish()
    }
}
