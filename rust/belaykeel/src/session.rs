//! The session and its calls.

use crate::method::{Engine, Order, Selection, WorkSpaces};
use crate::offers::Offers;
use crate::raw::{self, OFFERS_WORDS};
use crate::refusal::Refusal;
use crate::sheet::Sheet;
use core::mem::offset_of;

/// The most events that a session holds.
pub const EVENTS: usize = 64;

/// A past event: kind 1 choice added, 2 strike added, 3 choice withdrawn, 4 strike withdrawn.
#[repr(C)]
#[derive(Clone, Copy, Debug, Default, PartialEq, Eq)]
pub struct Event {
    /// 1 to 4 in a session that is not malformed.
    pub kind: u32,
    /// The field of the decision.
    pub field: u32,
    /// The position of the decision.
    pub position: u32,
}

/// The control room's session: the decisions in force, up to 64 events and their count, the mask of selected fields, and no offers.
///
/// Its words may hold anything. [`Session::open`] starts afresh from whatever is there; every other call refuses a session that is
/// malformed for the sheet, as one of 0s is: it selects no field. A refused call leaves the session as it was.
///
/// A strike and a choice, and the strike withdrawn first. What the strike alone drove out returns; what the choice forbids does not:
///
/// ```
/// use belaykeel::{Engine, Order, Selection, Session, Sheet, WorkSpaces};
/// # fn main() -> Result<(), belaykeel::Refusal> {
/// let sheet = Sheet::write(&[2, 3, 100, 200, 300, 3, 100, 200, 300, 24, 1, 0, 1, 1, 100])?;
/// let (engine, order, mut spaces) = (Engine::Queue, Order::Rising, WorkSpaces::new());
/// let mut session = Session::default();
/// session.open(&sheet, engine, &order, &Selection::All, &mut spaces)?;
/// session.strike(&sheet, engine, &order, 0, 2, &mut spaces)?;
/// session.choose(&sheet, engine, &order, 1, 0, &mut spaces)?;
/// let offers = session.withdraw_strike(&sheet, engine, &order, 0, 2, &mut spaces)?;
/// assert_eq!(offers.masks(), [6, 1]);
/// # Ok(())
/// # }
/// ```
#[repr(C)]
#[derive(Clone, Debug, PartialEq, Eq)]
pub struct Session {
    /// For each field the mask of its chosen positions.
    pub choices: [u32; OFFERS_WORDS],
    /// For each field the mask of its struck positions.
    pub strikes: [u32; OFFERS_WORDS],
    /// The first `count` have happened, oldest first. The places past them hold anything.
    pub events: [Event; EVENTS],
    /// How many events have happened.
    pub count: u32,
    /// The mask of selected fields: bit f means that field f is selected. Only an accepted open sets it.
    pub selected: u32,
}

// The library's layout of a session, in bytes: it reads and writes the parts at these offsets. examples/c/layout.c holds C callers to the
// same.
const _: () = {
    assert!(offset_of!(Session, choices) == 0);
    assert!(offset_of!(Session, strikes) == 96);
    assert!(offset_of!(Session, events) == 192);
    assert!(offset_of!(Session, count) == 960);
    assert!(offset_of!(Session, selected) == 964);
    assert!(size_of::<Session>() == 968);
    assert!(offset_of!(Event, kind) == 0);
    assert!(offset_of!(Event, field) == 4);
    assert!(offset_of!(Event, position) == 8);
    assert!(size_of::<Event>() == 12);
};

impl Default for Session {
    /// All words 0.
    fn default() -> Session {
        Session { choices: [0; OFFERS_WORDS], strikes: [0; OFFERS_WORDS], events: [Event::default(); EVENTS], count: 0, selected: 0 }
    }
}

/// Makes a call by its function in [`raw`], with these values of its own.
macro_rules! make {
    ($session:ident.$name:ident($sheet:ident, $engine:ident, $order:ident, $spaces:ident $(, $value:expr)*)) => {{
        let (bytes, WorkSpaces { rows, memory }) = ($sheet.as_bytes(), $spaces);
        let mut offers = [0; OFFERS_WORDS];
        Refusal::check(raw::$name($session, bytes, $engine.number(), $order.bytes($sheet) $(, $value)*, &mut offers, rows, memory))?;
        Ok(Offers::new(offers, $sheet.fields()))
    }};
}

/// Defines a method for a call, with a field and a position where the call takes them.
macro_rules! method {
    ($(#[$about:meta])* $name:ident($($extra:ident),*)) => {
        $(#[$about])*
        pub fn $name(
            &mut self,
            sheet: &Sheet,
            engine: Engine,
            order: &Order,
            $($extra: u32,)*
            spaces: &mut WorkSpaces,
        ) -> Result<Offers, Refusal> {
            make!(self.$name(sheet, engine, order, spaces $(, $extra)*))
        }
    };
}

impl Session {
    /// Starts with no decisions, no events and this selection, whatever the session held. Later calls use the selection too.
    pub fn open(
        &mut self,
        sheet: &Sheet,
        engine: Engine,
        order: &Order,
        selection: &Selection,
        spaces: &mut WorkSpaces,
    ) -> Result<Offers, Refusal> {
        make!(self.open(sheet, engine, order, spaces, selection.mask(sheet)))
    }

    method! {
        /// Changes nothing and gives the offers.
        show()
    }
    method! {
        /// Adds a choice of a setting, and the event.
        choose(field, position)
    }
    method! {
        /// Adds a strike of a setting, and the event.
        strike(field, position)
    }
    method! {
        /// Removes a choice that is in force, in any order of the decisions, and adds the event.
        withdraw_choice(field, position)
    }
    method! {
        /// Removes a strike that is in force, in any order of the decisions, and adds the event.
        withdraw_strike(field, position)
    }
    method! {
        /// Drops the latest event and reverses it: an added decision goes, a withdrawn one returns.
        back()
    }
    method! {
        /// Drops all events; decisions remain.
        coil_on()
    }

    /// The events that have happened, oldest first; at most 64.
    pub fn past_events(&self) -> &[Event] {
        &self.events[..EVENTS.min(self.count as usize)]
    }

    /// The selected fields, rising.
    pub fn selected_fields(&self) -> impl Iterator<Item = u32> {
        let selected = self.selected;
        (0..u32::BITS).filter(move |field| selected >> field & 1 == 1)
    }
}
