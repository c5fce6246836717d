//! Faults in the numbers that refuse calls with a session, and in their order.

use super::making::{answer, sheet, show};
use super::remembering::Memory;
use super::Fault;
use super::How::{Instead, Makes, Number};
use crate::case::{setting, with_setting};
use crate::library::{Answer, Lent, Library};
use crate::linked::Linked;
use crate::words::words;
use belaykeel::Session;
use public_calls::Call;
use solver::session::ledger;
use solver::{reading, Arguments, Sheet};

pub static ROWS: &[Fault] = &[
    Fault {
        name: "swapped",
        promise: "9.1",
        says: "12 and 13 are swapped.",
        how: Number(|number, _, _| if matches!(number, 12 | 13) { 25 - number } else { number }),
    },
    Fault {
        name: "swapped_10_and_11",
        promise: "9.1",
        says: "10 and 11 are swapped.",
        how: Number(|number, _, _| if matches!(number, 10 | 11) { 21 - number } else { number }),
    },
    Fault {
        name: "order_unread",
        promise: "9.1",
        says: "The order is not read.",
        how: Instead(9, |call, lent| {
            let order: Vec<u8> = (0..sheet(lent).fields() as u8).collect();
            Linked.call(call, &mut Lent { order: &order, ..lent.again() })
        }),
    },
    Fault {
        name: "any_engine",
        promise: "9.1",
        says: "An engine's number that is none of 1, 2 and 3 is taken for 1.",
        how: Instead(7, |call, lent| match lent.engine {
            1..=3 => answer(call, 7),
            _ => Linked.call(call, &mut Lent { engine: 1, ..lent.again() }),
        }),
    },
    Fault {
        name: "last_position_taken",
        promise: "9.1",
        says: "A position that a field does not have is taken for its last.",
        how: Instead(7, last_position_taken),
    },
    Fault { name: "adds_again", promise: "9.1", says: "A decision that is in force is added without effect.", how: Instead(10, show) },
    Fault {
        name: "withdraws_again",
        promise: "9.1",
        says: "A decision that is not in force is withdrawn without effect.",
        how: Instead(11, show),
    },
    Fault { name: "back_without_event", promise: "9.1", says: "Back without an event has no effect.", how: Instead(13, show) },
    Fault {
        name: "full_at_63",
        promise: "8.1",
        says: "An event that is to be added to 63 is refused by 12.",
        how: Number(|number, call, lent| match (number, lent.session.count) {
            (0, 64) | (14, 63) if call.row().has("position") => 12,
            _ => number,
        }),
    },
    Fault {
        name: "engine_3_at_24_only",
        promise: "6.1",
        says: "Engine 3 is refused by 7 at a reach below 24.",
        how: Number(|number, call, lent| if number == 0 && below_24(3, call, lent) { 7 } else { number }),
    },
    Fault {
        name: "gives_8",
        promise: "6.6",
        says: "Engine 2 is refused by 8 at a reach below 24.",
        how: Number(|number, call, lent| if number == 0 && below_24(2, call, lent) { 8 } else { number }),
    },
    Fault {
        name: "order_9_before_7",
        promise: "9.2",
        says: "9 is tried before 7.",
        how: Number(|number, _, lent| if number == 7 && unordered(lent) { 9 } else { number }),
    },
    Fault {
        name: "order_12_before_10",
        promise: "9.2",
        says: "12 is tried before 10.",
        how: Number(|number, _, lent| if number == 10 && lent.session.count == 64 { 12 } else { number }),
    },
    Fault {
        name: "order_12_before_11",
        promise: "9.2",
        says: "12 is tried before 11.",
        how: Number(|number, _, lent| if number == 11 && lent.session.count == 64 { 12 } else { number }),
    },
    Fault {
        name: "order_15_after_7",
        promise: "9.2",
        says: "15 is tried after 7.",
        how: Number(|number, _, lent| if number == 15 && !(1..=3).contains(&lent.engine) { 7 } else { number }),
    },
    Fault {
        name: "order_6_after_5",
        promise: "9.2",
        says: "6 is tried after 1 to 5.",
        how: Number(|number, call, lent| match reading::sheet(lent.sheet) {
            Err(refusal) if number == 6 && call.row().has("session") => refusal,
            _ => number,
        }),
    },
    Fault {
        name: "open_judges_session",
        promise: "9.2",
        says: "Open refuses a malformed session, by 15.",
        how: Makes(open_judges_session),
    },
    Fault {
        name: "count_unread",
        promise: "8.7",
        says: "A count above 64 is taken as 64.",
        how: Instead(15, |call, lent| shown_as(call, lent, |session, _| session.count = session.count.min(64))),
    },
    Fault {
        name: "not_reversed",
        promise: "8.7",
        says: "Events are not reversed to judge the session.",
        how: Instead(15, |call, lent| shown_as(call, lent, |session, _| session.count = 0)),
    },
    Fault {
        name: "beyond_decided",
        promise: "8.7",
        says: "A decision on a setting that the sheet does not have is passed over.",
        how: Instead(15, |call, lent| shown_as(call, lent, without_beyond)),
    },
    Fault {
        name: "unknown_kinds",
        promise: "8.7",
        says: "Undoing the events to judge the session ends at one that has none of the four kinds.",
        how: Instead(15, |call, lent| shown_as(call, lent, without_unknown_kinds)),
    },
];

/// Makes a show that 15 refuses on an altered session, and puts the session back.
fn shown_as(call: &Call, lent: &mut Lent, alter: fn(&mut Session, &Sheet)) -> Answer {
    if *call != Call::Show {
        return answer(call, 15);
    }
    let (held, sheet) = (lent.session.clone(), sheet(lent));
    alter(lent.session, &sheet);
    let answered = Linked.call(call, lent);
    *lent.session = held;
    answered
}

/// Drops the decisions on settings that a sheet does not have.
fn without_beyond(session: &mut Session, sheet: &Sheet) {
    let settings = |field: usize| sheet.settings.get(field).map_or(0, |settings| (1 << settings.len()) - 1);
    for field in 0..session.choices.len() {
        session.choices[field] &= settings(field);
        session.strikes[field] &= settings(field);
    }
}

/// Drops the events up to the last one that has none of the four kinds.
fn without_unknown_kinds(session: &mut Session, _: &Sheet) {
    let count = session.events.len().min(session.count as usize);
    let unknown = session.events[..count].iter().rposition(|event| !(1..=4).contains(&event.kind));
    let dropped = unknown.map_or(0, |place| place + 1);
    session.events.copy_within(dropped..count, 0);
    session.count -= dropped as u32;
}

fn last_position_taken(call: &Call, lent: &mut Lent) -> Answer {
    let sheet = sheet(lent);
    let settings = setting(call).and_then(|(field, _)| sheet.settings.get(field as usize));
    match (setting(call), settings) {
        (Some((field, position)), Some(settings)) if position as usize >= settings.len() => {
            Linked.call(&with_setting(call, field, settings.len() as u32 - 1), lent)
        }
        _ => answer(call, 7),
    }
}

/// Whether an accepted call runs this engine at a reach below 24.
fn below_24(engine: u32, call: &Call, lent: &Lent) -> bool {
    call.row().has("engine") && lent.engine == engine && sheet(lent).reach < 24
}

/// Whether the order is one that 9 refuses.
fn unordered(lent: &Lent) -> bool {
    Arguments { order: lent.order, ..Arguments::default() }.order(&sheet(lent)).is_err()
}

fn open_judges_session(_: &mut Memory, call: &Call, lent: &mut Lent) -> Answer {
    let held = ledger(&words(lent.session));
    let malformed = |sheet: &Sheet| held.is_none_or(|ledger| ledger.malformed(sheet));
    match (call, reading::sheet(lent.sheet)) {
        (Call::Open(_), Ok(sheet)) if malformed(&sheet) => answer(call, 15),
        _ => Linked.call(call, lent),
    }
}
