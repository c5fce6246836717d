//! A session of the wrapper as the solver's words, and back.

use belaykeel::{Event, Session};
use solver::session::{event_place, CHOICES, COUNT, SELECTED, STRIKES, WORDS};
use solver::Words;

/// Every word of a session in its order.
pub fn words(session: &Session) -> Words {
    let mut words = [0; WORDS];
    words[CHOICES].copy_from_slice(&session.choices);
    words[STRIKES].copy_from_slice(&session.strikes);
    for (place, event) in session.events.iter().enumerate() {
        words[event_place(place)].copy_from_slice(&[event.kind, event.field, event.position]);
    }
    words[COUNT] = session.count;
    words[SELECTED] = session.selected;
    words
}

/// The session with these words.
pub fn session(words: &Words) -> Session {
    let mut session = Session::default();
    session.choices.copy_from_slice(&words[CHOICES]);
    session.strikes.copy_from_slice(&words[STRIKES]);
    for (place, event) in session.events.iter_mut().enumerate() {
        let [kind, field, position] = words[event_place(place)] else { unreachable!("an event has three words") };
        *event = Event { kind, field, position };
    }
    session.count = words[COUNT];
    session.selected = words[SELECTED];
    session
}
