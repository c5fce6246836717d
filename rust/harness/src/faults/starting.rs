//! Faults in the start set, and in when a call is refused as wiped out.

use super::making::{accept, after, answer, sheet};
use super::Fault;
use super::How::{Instead, Number};
use crate::library::{Answer, Lent};
use belaykeel::Session;
use public_calls::Call;
use solver::{Ledger, Network, Set};

pub static ROWS: &[Fault] = &[
    Fault {
        name: "first_chosen",
        promise: "7.2",
        says: "Where two or more settings of a field are chosen, the start set has the first of them.",
        how: Instead(14, |call, lent| {
            from_start(call, lent, |full, chosen, struck| full & !struck & if chosen == 0 { full } else { chosen & chosen.wrapping_neg() })
        }),
    },
    Fault {
        name: "any_chosen",
        promise: "7.2",
        says: "Where two or more settings of a field are chosen, the start set has all of them.",
        how: Instead(14, |call, lent| {
            from_start(call, lent, |full, chosen, struck| full & !struck & if chosen == 0 { full } else { chosen })
        }),
    },
    Fault {
        name: "struck_choice_taken",
        promise: "7.2",
        says: "The start set has a chosen setting although it is struck.",
        how: Instead(14, |call, lent| {
            from_start(call, lent, |full, chosen, struck| match chosen.count_ones() {
                0 => full & !struck,
                1 => chosen,
                _ => 0,
            })
        }),
    },
    Fault {
        name: "unselected_empty",
        promise: "5.7",
        says: "A call is accepted where only fields that are not selected are empty.",
        how: Instead(14, unselected_empty),
    },
    Fault {
        name: "wiped_out_malformed",
        promise: "8.8",
        says: "A session that is wiped out is taken for malformed.",
        how: Number(|number, call, _| if number == 14 && *call == Call::Show { 15 } else { number }),
    },
    Fault {
        name: "one_offer_refused",
        promise: "9.5",
        says: "A call is refused by 14 where each field would have one offer.",
        how: Number(|number, call, lent| if number == 0 && call.row().has("offers") && one_offer(lent) { 14 } else { number }),
    },
];

/// Accepts a call that 14 refuses where these are offers of the session and the ledger after it.
fn accepted(call: &Call, lent: &mut Lent, offers: impl Fn(&Network, &Session, &Ledger) -> Option<Set>) -> Answer {
    let sheet = sheet(lent);
    let network = Network::of(&sheet);
    let Some((session, next)) = after(call, lent.session) else { return answer(call, 14) };
    match offers(&network, &session, &next) {
        Some(offers) => accept(session, &offers[..sheet.fields()], call, lent),
        None => answer(call, 14),
    }
}

/// Makes a call that 14 refuses with another start set: what a field takes of all, the chosen and the struck settings.
fn from_start(call: &Call, lent: &mut Lent, takes: fn(u32, u32, u32) -> u32) -> Answer {
    accepted(call, lent, |network, session, next| {
        let start = std::array::from_fn(|f| takes(network.full[f], session.choices[f], session.strikes[f]));
        Some(network.offers(start, next.selected)).filter(|offers| !network.wiped_out(offers))
    })
}

/// Makes a call that 14 refuses where every selected field has an offer.
fn unselected_empty(call: &Call, lent: &mut Lent) -> Answer {
    accepted(call, lent, |network, _, next| {
        let offers = network.offers(next.start_set(&network.full), next.selected);
        (0..network.fields()).all(|f| next.selected >> f & 1 == 0 || offers[f] != 0).then_some(offers)
    })
}

/// Whether each field has one offer.
fn one_offer(lent: &Lent) -> bool {
    lent.offers[..sheet(lent).fields()].iter().all(|mask| mask.count_ones() == 1)
}
