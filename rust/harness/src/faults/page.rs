//! What a faulty engine sees.

use crate::library::Lent;
use crate::words::words;
use public_calls::Call;
use solver::session::ledger;
use solver::{reading, Ledger, Network, Set, Sheet};

/// An accepted call that gives offers.
pub struct Page<'a> {
    pub call: &'a Call,
    pub engine: u32,
    pub order: &'a [u8],
    pub sheet: Sheet,
    pub network: Network,
    /// The ledger after the call.
    pub ledger: Ledger,
    /// The start set as it is.
    pub unclosed: Set,
    /// The start set, closed.
    pub start: Set,
    /// The selected fields, in the order that is lent.
    pub visited: Vec<u8>,
}

impl<'a> Page<'a> {
    pub fn of(call: &'a Call, lent: &'a Lent) -> Page<'a> {
        let sheet = reading::sheet(lent.sheet).expect("the call was accepted");
        let ledger = ledger(&words(lent.session)).expect("the call was accepted");
        Page::new(call, lent.engine, lent.order, sheet, ledger)
    }

    fn new(call: &'a Call, engine: u32, order: &'a [u8], sheet: Sheet, ledger: Ledger) -> Page<'a> {
        let network = Network::of(&sheet);
        let unclosed = ledger.start_set(&network.full);
        let start = network.closing(unclosed, &every(&network));
        let visited = order.iter().copied().filter(|f| ledger.selected >> f & 1 == 1).collect();
        Page { call, engine, order, sheet, network, ledger, unclosed, start, visited }
    }

    /// The same call with another sheet.
    pub fn with(&self, sheet: Sheet) -> Page<'a> {
        Page::new(self.call, self.engine, self.order, sheet, self.ledger.clone())
    }

    /// The mask of selected fields.
    pub fn selected(&self) -> u32 {
        self.ledger.selected
    }

    /// The offers where these fields are selected.
    pub fn offers(&self, selected: u32) -> Option<Set> {
        Some(self.network.offers(self.start, selected))
    }
}

/// Every field.
pub fn every(network: &Network) -> Vec<usize> {
    (0..network.fields()).collect()
}
