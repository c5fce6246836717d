//! A session's words, and the ledger that they hold.
//!
//! 24 masks of choices, 24 of strikes, 64 events of a kind, a field and a position, the count of the events that have happened, and the
//! mask of selected fields.

use crate::ledger::{Decision, Event, Ledger, Sort};
use crate::{MOST, MOST_EVENTS};
use std::ops::Range;

/// The places of the masks of choices.
pub const CHOICES: Range<usize> = 0..MOST;
/// The places of the masks of strikes.
pub const STRIKES: Range<usize> = MOST..2 * MOST;
/// The place of the first event.
const EVENTS: usize = 2 * MOST;
/// The place of the count.
pub const COUNT: usize = EVENTS + 3 * MOST_EVENTS;
/// The place of the mask of selected fields.
pub const SELECTED: usize = COUNT + 1;
/// How many words a session has.
pub const WORDS: usize = SELECTED + 1;

pub type Words = [u32; WORDS];

/// The places of an event: its kind, field and position.
pub fn event_place(event: usize) -> Range<usize> {
    EVENTS + 3 * event..EVENTS + 3 * event + 3
}

/// The ledger that the words hold; none where they hold more than 64 events or one of no kind.
pub fn ledger(words: &Words) -> Option<Ledger> {
    let mut ledger = Ledger { selected: words[SELECTED], ..Ledger::default() };
    for field in 0..MOST as u32 {
        for position in 0..32 {
            for (sort, masks) in [(Sort::Choice, &words[CHOICES]), (Sort::Strike, &words[STRIKES])] {
                if masks[field as usize] >> position & 1 == 1 {
                    ledger.decisions.insert(Decision { sort, field, position });
                }
            }
        }
    }
    if words[COUNT] as usize > MOST_EVENTS {
        return None;
    }
    for place in 0..words[COUNT] as usize {
        ledger.events.push(event(&words[event_place(place)])?);
    }
    Some(ledger)
}

fn event(words: &[u32]) -> Option<Event> {
    let decision = |sort| Decision { sort, field: words[1], position: words[2] };
    match words[0] {
        1 => Some(Event::Added(decision(Sort::Choice))),
        2 => Some(Event::Added(decision(Sort::Strike))),
        3 => Some(Event::Withdrawn(decision(Sort::Choice))),
        4 => Some(Event::Withdrawn(decision(Sort::Strike))),
        _ => None,
    }
}

fn kind(event: Event) -> u32 {
    match (event, event.decision().sort) {
        (Event::Added(_), Sort::Choice) => 1,
        (Event::Added(_), Sort::Strike) => 2,
        (Event::Withdrawn(_), Sort::Choice) => 3,
        (Event::Withdrawn(_), Sort::Strike) => 4,
    }
}

/// The words of a session that held these and now holds the ledger. Event places past the count are left.
pub fn words_after(before: &Words, ledger: &Ledger) -> Words {
    let mut words = *before;
    words[..EVENTS].fill(0);
    for decision in &ledger.decisions {
        let masks = if decision.sort == Sort::Choice { CHOICES } else { STRIKES };
        words[masks][decision.field as usize] |= 1 << decision.position;
    }
    for (place, &event) in ledger.events.iter().enumerate() {
        let decision = event.decision();
        words[event_place(place)].copy_from_slice(&[kind(event), decision.field, decision.position]);
    }
    words[COUNT] = ledger.events.len() as u32;
    words[SELECTED] = ledger.selected;
    words
}
