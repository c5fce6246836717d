//! The causes of a refusal, a function for each stage, so that a call tries them in its order. A call is first prepared, which judges all
//! that comes before a step and builds the network once, and then settles on steps.

use crate::ledger::{Event, Ledger, Step};
use crate::network::Network;
use crate::reading;
use crate::sheet::Sheet;
use std::collections::BTreeMap;

/// What a call is given besides the session and its own values.
#[derive(Clone, Debug, Default)]
pub struct Arguments<'a> {
    pub sheet: &'a [u8],
    pub engine: u32,
    pub order: &'a [u8],
    /// Of the lent spaces their lengths, by their names.
    pub lengths: BTreeMap<&'static str, usize>,
}

impl Arguments<'_> {
    /// The length of a lent space; 0 where it is not lent.
    pub fn length(&self, name: &str) -> usize {
        self.lengths.get(name).copied().unwrap_or(0)
    }

    /// 6: the offers list or a work space is too short.
    pub fn spaces(&self) -> Result<(), u32> {
        refused_where(6, self.length("offers") < 24 || self.length("rows") < 13_248 || self.length("memory") < 13_824)
    }

    /// 7: the engine is not 1 to 3.
    pub fn engine(&self) -> Result<(), u32> {
        refused_where(7, self.engine < 1 || self.engine > 3)
    }

    /// 9: the order does not hold every field of the sheet just once.
    pub fn order(&self, sheet: &Sheet) -> Result<(), u32> {
        let n = sheet.fields();
        let once = |f: usize| self.order.iter().filter(|&&g| usize::from(g) == f).count() == 1;
        refused_where(9, self.order.len() != n || !(0..n).all(once))
    }
}

fn refused_where(number: u32, holds: bool) -> Result<(), u32> {
    if holds {
        Err(number)
    } else {
        Ok(())
    }
}

/// 15: the session is malformed. Without a ledger it is.
pub fn session(held: Option<&Ledger>, sheet: &Sheet) -> Result<Ledger, u32> {
    held.filter(|ledger| !ledger.malformed(sheet)).cloned().ok_or(15)
}

/// 18, at open in the place of 15: the mask selects no field, or one beyond the sheet (request 7 of 02).
pub fn selection(selected: u32, sheet: &Sheet) -> Result<Ledger, u32> {
    refused_where(18, !sheet.selects(selected)).map(|()| Ledger::default())
}

/// 7: the setting of an event is not on the sheet.
pub fn setting(event: Event, sheet: &Sheet) -> Result<(), u32> {
    let decision = event.decision();
    refused_where(7, !sheet.has(decision.field, decision.position))
}

/// A sheet with its network, which is built once however many steps are settled.
pub struct Prepared {
    pub sheet: Sheet,
    pub network: Network,
}

impl Prepared {
    pub fn of(sheet: Sheet) -> Prepared {
        let network = Network::of(&sheet);
        Prepared { sheet, network }
    }

    /// The ledger after a step, and its offers; or 10, 11, 13, 12, or 14: wiped out under the decisions that would hold.
    pub fn settle(&self, ledger: &Ledger, step: Step) -> Result<(Ledger, Vec<u32>), u32> {
        let next = ledger.after(step)?;
        let offers = self.network.offers(next.start_set(&self.network.full), next.selected);
        refused_where(14, self.network.wiped_out(&offers))?;
        Ok((next, offers[..self.sheet.fields()].to_vec()))
    }
}

/// What is judged before the step of a single call: 6; 1 to 5; 15, at open 18 in its place; 7; 9. Engine 2 runs at every reach and 8 is
/// never given: request 2 of 02. Gives the sheet with its network, and the ledger that the step is taken from.
pub fn prepare(held: Option<&Ledger>, step: Step, given: &Arguments) -> Result<(Prepared, Ledger), u32> {
    given.spaces()?;
    let sheet = reading::sheet(given.sheet)?;
    let ledger = match step {
        Step::Open(selected) => selection(selected, &sheet)?,
        _ => session(held, &sheet)?,
    };
    given.engine()?;
    if let Step::Add(event) = step {
        setting(event, &sheet)?;
    }
    given.order(&sheet)?;
    Ok((Prepared::of(sheet), ledger))
}
