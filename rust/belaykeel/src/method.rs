//! How a call finds the offers: engine, order and work spaces, none of which alters the offers, and the selection, which does.

use crate::raw::{MEMORY_WORDS, OFFERS_WORDS, ROWS_WORDS};
use crate::sheet::Sheet;

/// The engines by their numbers. Each runs at every reach.
#[derive(Clone, Copy, Debug, Default, PartialEq, Eq, Hash)]
#[repr(u32)]
pub enum Engine {
    /// SAC-1: passes over the selected fields until one changes nothing.
    #[default]
    Sac1 = 1,
    /// SAC-2: as SAC-1, but a setting that passed is tested again only when some of what its test left in the neighbourhood has gone.
    Sac2 = 2,
    /// The queue method: only fields whose neighbourhood changed are visited again.
    Queue = 3,
}

impl Engine {
    /// Every engine.
    pub const ALL: [Engine; 3] = [Engine::Sac1, Engine::Sac2, Engine::Queue];

    /// The number of the engine, 1 to 3.
    pub fn number(self) -> u32 {
        self as u32
    }
}

/// The order in which an engine visits the selected fields. It holds the others too.
#[derive(Clone, Debug, Default, PartialEq, Eq)]
pub enum Order {
    /// From field 0 up.
    #[default]
    Rising,
    /// Every field of the sheet just once.
    Listed(Vec<u8>),
}

const RISING: [u8; OFFERS_WORDS] = {
    let mut order = [0; OFFERS_WORDS];
    let mut field = 0;
    while field < OFFERS_WORDS {
        order[field] = field as u8;
        field += 1;
    }
    order
};

impl Order {
    /// The list of fields for a sheet.
    pub(crate) fn bytes(&self, sheet: &Sheet) -> &[u8] {
        match self {
            Order::Rising => &RISING[..sheet.fields()],
            Order::Listed(fields) => fields,
        }
    }
}

/// The fields that are selected at open: those whose settings are tested one by one. The session keeps them. With fewer of them the offers
/// are the same or more: all that is offered with more of them, and nothing that closing the sheet excludes.
///
/// A list that is empty or has a field beyond the sheet is refused ([`Refusal::NoSelection`](crate::Refusal::NoSelection)). It may name a
/// field twice.
#[derive(Clone, Debug, Default, PartialEq, Eq)]
pub enum Selection {
    /// Every field of the sheet.
    #[default]
    All,
    /// These fields.
    Fields(Vec<u32>),
}

/// A bit of the mask that stands for no field of any sheet.
const BEYOND: u32 = u32::BITS - 1;

impl Selection {
    /// The mask for a sheet: bit f means that field f is selected. A field past the bits is given a bit that is beyond every sheet too.
    pub(crate) fn mask(&self, sheet: &Sheet) -> u32 {
        match self {
            Selection::All => (1 << sheet.fields()) - 1,
            Selection::Fields(fields) => fields.iter().fold(0, |mask, &field| mask | 1 << field.min(BEYOND)),
        }
    }
}

/// The two work spaces, made once and used for every call. What they hold affects no answer.
pub struct WorkSpaces {
    pub(crate) rows: Box<[u32]>,
    pub(crate) memory: Box<[u32]>,
}

impl WorkSpaces {
    /// Spaces of 13,248 and 13,824 words.
    pub fn new() -> WorkSpaces {
        WorkSpaces { rows: vec![0; ROWS_WORDS].into(), memory: vec![0; MEMORY_WORDS].into() }
    }
}

impl Default for WorkSpaces {
    fn default() -> WorkSpaces {
        WorkSpaces::new()
    }
}
