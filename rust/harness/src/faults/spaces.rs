//! Faults in using the spaces that calls with a session are lent.

use super::making::sheet;
use super::remembering::Memory;
use super::Fault;
use super::How::{Accepted, Makes, Number, Refused};
use crate::library::{Answer, Lent, Library};
use crate::linked::Linked;
use belaykeel::raw::{MEMORY_WORDS, OFFERS_WORDS, ROWS_WORDS};
use public_calls::Call;

pub static ROWS: &[Fault] = &[
    Fault {
        name: "offers_on_refusal",
        promise: "9.1",
        says: "Offers are written by a call that 14 refuses.",
        how: Refused(|number, _, lent| {
            if number == 14 {
                lent.offers[0] = 0;
            }
        }),
    },
    Fault {
        name: "later_words",
        promise: "8.4",
        says: "Words of the offers list past the fields are written.",
        how: Accepted(|_, call, lent| {
            if call.row().has("offers") {
                let n = sheet(lent).fields();
                lent.offers.iter_mut().skip(n).take(1).for_each(|word| *word = 0);
            }
        }),
    },
    Fault {
        name: "space_touched",
        promise: "9.1",
        says: "A work space is written before its length is judged.",
        how: Makes(space_touched),
    },
    Fault { name: "space_read", promise: "8.6", says: "What a work space held alters the offers.", how: Makes(space_read) },
    Fault {
        name: "exact_offers_refused",
        promise: "8.3",
        says: "An offers list of 24 words is refused by 6.",
        how: Number(|number, call, lent| if call.row().has("offers") && lent.offers.len() == OFFERS_WORDS { 6 } else { number }),
    },
    Fault {
        name: "exact_rows_refused",
        promise: "8.3",
        says: "A first work space of 13,248 words is refused by 6.",
        how: Number(|number, call, lent| if call.row().has("rows") && lent.rows.len() == ROWS_WORDS { 6 } else { number }),
    },
    Fault {
        name: "exact_memory_refused",
        promise: "8.3",
        says: "A second work space of 13,824 words is refused by 6.",
        how: Number(|number, call, lent| if call.row().has("memory") && lent.memory.len() == MEMORY_WORDS { 6 } else { number }),
    },
];

fn space_touched(_: &mut Memory, call: &Call, lent: &mut Lent) -> Answer {
    lent.rows.iter_mut().take(1).for_each(|word| *word ^= 1);
    Linked.call(call, lent)
}

fn space_read(_: &mut Memory, call: &Call, lent: &mut Lent) -> Answer {
    let held = lent.memory.first().copied();
    let answered = Linked.call(call, lent);
    if answered.number == 0 && held == Some(u32::MAX) {
        lent.offers[0] ^= 1;
    }
    answered
}
