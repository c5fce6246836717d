//! Faults in the steps of the ledger and in the session's words.

use super::Fault;
use super::How::{Accepted, Refused, Session as After};
use belaykeel::{Event, Session};
use public_calls::{Call, Name};

pub static ROWS: &[Fault] = &[
    Fault {
        name: "open_clears",
        promise: "8.5",
        says: "Open clears the event places.",
        how: After(Name::Open, |_, session| session.events.fill(Event::default())),
    },
    Fault {
        name: "back_clears",
        promise: "8.5",
        says: "Back clears the place of the event that it drops.",
        how: After(Name::Back, |_, session| session.events[session.count as usize] = Event::default()),
    },
    Fault {
        name: "open_keeps_decisions",
        promise: "7.4",
        says: "Open leaves the decisions as they were.",
        how: After(Name::Open, keep_decisions),
    },
    Fault {
        name: "open_keeps_events",
        promise: "7.4",
        says: "Open leaves the count of the events as it was.",
        how: After(Name::Open, |before, session| session.count = before.count),
    },
    Fault {
        name: "back_keeps_decisions",
        promise: "7.4",
        says: "Back drops the event, and the decisions stay as they were.",
        how: After(Name::Back, keep_decisions),
    },
    Fault {
        name: "back_keeps_event",
        promise: "7.4",
        says: "Back does not drop the event.",
        how: After(Name::Back, |_, session| session.count += 1),
    },
    Fault {
        name: "coil_on_drops_decisions",
        promise: "7.4",
        says: "Coil-on drops the decisions too.",
        how: After(Name::CoilOn, |_, session| (session.choices, session.strikes) = Default::default()),
    },
    Fault {
        name: "coil_on_keeps_events",
        promise: "7.4",
        says: "Coil-on leaves the events.",
        how: After(Name::CoilOn, |before, session| session.count = before.count),
    },
    Fault {
        name: "coil_on_clears_mask",
        promise: "7.5",
        says: "Coil-on sets the mask of selected fields to 0.",
        how: After(Name::CoilOn, |_, session| session.selected = 0),
    },
    Fault {
        name: "show_adds_an_event",
        promise: "8.2",
        says: "Show adds an event where there is a place for one.",
        how: After(Name::Show, |_, session| session.count += u32::from(session.count < 64)),
    },
    Fault {
        name: "step_not_taken",
        promise: "8.2",
        says: "An accepted call leaves the session as it was.",
        how: Accepted(|before, _, lent| *lent.session = before.clone()),
    },
    Fault {
        name: "choose_strikes",
        promise: "7.4",
        says: "Choose adds a strike of the setting too.",
        how: After(Name::Choose, |_, session| {
            let event = session.events[session.count as usize - 1];
            session.strikes[event.field as usize] |= 1 << event.position;
        }),
    },
    Fault {
        name: "withdrawal_keeps_choice",
        promise: "7.4",
        says: "The withdrawal of a choice leaves it in force.",
        how: After(Name::WithdrawChoice, keep_decisions),
    },
    Fault {
        name: "withdrawal_drops_strikes",
        promise: "7.4",
        says: "The withdrawal of a choice withdraws the strikes of the field too.",
        how: After(Name::WithdrawChoice, |_, session| {
            let event = session.events[session.count as usize - 1];
            session.strikes[event.field as usize] = 0;
        }),
    },
    Fault {
        name: "other_position_recorded",
        promise: "7.4",
        says: "The event of a decision has the position after the decision's.",
        how: Accepted(|_, call, lent| added(call, lent.session).into_iter().for_each(|event| event.position += 1)),
    },
    Fault {
        name: "withdrawal_recorded_as_added",
        promise: "7.4",
        says: "The event of a withdrawal says that the decision was added.",
        how: Accepted(|_, call, lent| added(call, lent.session).into_iter().for_each(|event| event.kind = 2 - event.kind % 2)),
    },
    Fault {
        name: "event_put_first",
        promise: "7.1",
        says: "An event comes before the earlier ones.",
        how: Accepted(|_, call, lent| {
            if added(call, lent.session).is_some() {
                lent.session.events[..lent.session.count as usize].rotate_right(1);
            }
        }),
    },
    Fault {
        name: "event_on_refusal",
        promise: "8.5",
        says: "A call that 14 refuses has left its event past the count.",
        how: Refused(|number, _, lent| {
            if number == 14 && lent.session.count < 64 {
                lent.session.events[lent.session.count as usize].kind = 2;
            }
        }),
    },
    Fault {
        name: "choice_on_refusal",
        promise: "7.5",
        says: "A choice that 14 refuses is in force.",
        how: Refused(|number, call, lent| {
            if let (14, Call::Choose(field, position)) = (number, call) {
                lent.session.choices[*field as usize] |= 1 << position;
            }
        }),
    },
];

fn keep_decisions(before: &Session, session: &mut Session) {
    (session.choices, session.strikes) = (before.choices, before.strikes);
}

/// The event that an accepted call added.
fn added<'a>(call: &Call, session: &'a mut Session) -> Option<&'a mut Event> {
    call.row().has("position").then(|| &mut session.events[session.count as usize - 1])
}
