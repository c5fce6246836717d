//! Ways to make a call that rows share.

use crate::library::{Answer, Lent, Library};
use crate::linked::Linked;
use crate::words::{session, words};
use belaykeel::Session;
use public_calls::Call;
use solver::effect::step;
use solver::session::{ledger, words_after};
use solver::{reading, Ledger, Sheet};

/// A number, with 0 for all else that the call answers.
pub fn answer(call: &Call, number: u32) -> Answer {
    Answer { number, others: vec![0; call.row().others.len()] }
}

/// The sheet of a call that was judged as far as its sheet.
pub fn sheet(lent: &Lent) -> Sheet {
    reading::sheet(lent.sheet).expect("the sheet was read")
}

/// Makes show in the place of another call.
pub fn show(_: &Call, lent: &mut Lent) -> Answer {
    Linked.call(&Call::Show, lent)
}

/// The session after the step of a call, with its ledger; none where the call has no step that can be made.
pub fn after(call: &Call, held: &Session) -> Option<(Session, Ledger)> {
    let before = words(held);
    let next = ledger(&before).unwrap_or_default().after(step(call)?).ok()?;
    Some((session(&words_after(&before, &next)), next))
}

/// Accepts a call, which leaves this session and gives these offers.
pub fn accept(after: Session, offers: &[u32], call: &Call, lent: &mut Lent) -> Answer {
    *lent.session = after;
    lent.offers[..offers.len()].copy_from_slice(offers);
    answer(call, 0)
}
