//! The calls in plain Rust. The lent work spaces are only asked for their lengths; the tables are the method's own, made once.

use super::read_write::{read_at_once, Outline};
use super::Method;
use crate::task::Job;
use crate::{Domains, MOST};
use belaykeel::raw::{MEMORY_WORDS, OFFERS_WORDS, ROWS_WORDS, SHEET_NUMBERS};
use belaykeel::{Event, Session, EVENTS};
use harness::library::{Answer, Lent, Library};
use public_calls::Call;

/// A method to find the offers, with the numbers of the sheet, the start set, the order and the mask of selected fields that it is given.
pub struct Plain {
    method: Method,
    job: Job,
}

impl Plain {
    pub fn new(method: Method) -> Plain {
        Plain { method, job: Job { numbers: vec![0; SHEET_NUMBERS], start: [0; MOST], order: Vec::with_capacity(MOST), selected: 0 } }
    }

    /// The whole call: the number of the first cause against it, in the order of the scope paper.
    fn answer(&mut self, call: &Call, given: &mut Lent) -> Result<(), u32> {
        let session = &mut *given.session;
        if given.offers.len() < OFFERS_WORDS || given.rows.len() < ROWS_WORDS || given.memory.len() < MEMORY_WORDS {
            return Err(6);
        }
        let sheet = read_at_once(given.sheet, &mut self.job.numbers)?;
        let selected = match *call {
            Call::Open(selected) if !selects(selected, &sheet) => return Err(18),
            Call::Open(selected) => selected,
            _ if malformed(session, &sheet) => return Err(15),
            _ => session.selected,
        };
        let event = event(call);
        if given.engine < 1 || given.engine > 3 || event.is_some_and(|event| !on_sheet(&sheet, &event)) {
            return Err(7);
        }
        if !is_order(given.order, sheet.fields) {
            return Err(9);
        }
        let (decisions, count) = step(session, call, event)?;
        self.job.start = decisions.start_set(&sheet);
        self.job.selected = selected;
        self.job.order.clear();
        self.job.order.extend_from_slice(given.order);
        let offers = (self.method)(&self.job).offers.ok_or(14u32)?;
        given.offers[..sheet.fields].copy_from_slice(&offers[..sheet.fields]);
        session.choices = decisions.choices;
        session.strikes = decisions.strikes;
        if let Some(event) = event {
            session.events[session.count as usize] = event;
        }
        session.count = count;
        session.selected = selected;
        Ok(())
    }
}

impl Library for Plain {
    fn call(&mut self, call: &Call, lent: &mut Lent) -> Answer {
        Answer { number: self.answer(call, lent).err().unwrap_or(0), others: vec![] }
    }
}

/// The decisions in force: for each field a mask of choices and one of strikes.
#[derive(Clone, Copy)]
struct Decisions {
    choices: Domains,
    strikes: Domains,
}

impl Decisions {
    fn of(session: &Session) -> Decisions {
        Decisions { choices: session.choices, strikes: session.strikes }
    }

    /// Adds the decision of an event where it is not in force, else removes it. Whether it is in force now.
    fn turn(&mut self, event: &Event) -> bool {
        let masks = if event.kind % 2 == 1 { &mut self.choices } else { &mut self.strikes };
        let (mask, bit) = (&mut masks[event.field as usize], 1 << event.position);
        *mask ^= bit;
        *mask & bit != 0
    }

    /// The settings less the struck ones; with one choice only that one, with more none.
    fn start_set(&self, sheet: &Outline) -> Domains {
        let mut start = sheet.full;
        for (f, domain) in start.iter_mut().enumerate() {
            let chosen = self.choices[f];
            let several = chosen & chosen.wrapping_sub(1) != 0;
            let allowed = if chosen == 0 { u32::MAX } else { chosen };
            *domain &= if several { 0 } else { allowed & !self.strikes[f] };
        }
        start
    }
}

/// The event that a call adds.
fn event(call: &Call) -> Option<Event> {
    let (kind, field, position) = match *call {
        Call::Choose(field, position) => (1, field, position),
        Call::Strike(field, position) => (2, field, position),
        Call::WithdrawChoice(field, position) => (3, field, position),
        Call::WithdrawStrike(field, position) => (4, field, position),
        _ => return None,
    };
    Some(Event { kind, field, position })
}

/// Whether the decision that an event adds or withdraws is in force after it.
fn adds(event: &Event) -> bool {
    event.kind <= 2
}

fn on_sheet(sheet: &Outline, event: &Event) -> bool {
    let full = sheet.full.get(event.field as usize).copied().unwrap_or(0);
    event.position < MOST as u32 && full >> event.position & 1 == 1
}

/// Whether a mask selects some field, and only fields of the sheet.
fn selects(selected: u32, sheet: &Outline) -> bool {
    selected != 0 && selected >> sheet.fields == 0
}

/// Whether a decision, an event or a selected field is not on the sheet, no field is selected, or the events do not lead to the decisions.
fn malformed(session: &Session, sheet: &Outline) -> bool {
    let mut decisions = Decisions::of(session);
    let off_sheet = (0..MOST).fold(0, |off, f| off | (decisions.choices[f] | decisions.strikes[f]) & !sheet.full[f]);
    let Some(events) = session.events.get(..session.count as usize) else {
        return true;
    };
    let reversed = |event: &Event| (1..=4).contains(&event.kind) && on_sheet(sheet, event) && decisions.turn(event) != adds(event);
    off_sheet != 0 || !selects(session.selected, sheet) || !events.iter().rev().all(reversed)
}

fn is_order(order: &[u8], fields: usize) -> bool {
    let mark = |marks: u32, &f: &u8| if f < MOST as u8 { marks | 1 << f } else { marks };
    order.len() == fields && order.iter().fold(0, mark) == (1 << fields) - 1
}

/// The decisions and the count of events after a call, or 10, 11, 13 or 12.
fn step(session: &Session, call: &Call, event: Option<Event>) -> Result<(Decisions, u32), u32> {
    let mut decisions = Decisions::of(session);
    let mut count = session.count;
    match (call, event) {
        (_, Some(event)) => {
            if decisions.turn(&event) != adds(&event) {
                return Err(if adds(&event) { 10 } else { 11 });
            }
            if count as usize == EVENTS {
                return Err(12);
            }
            count += 1;
        }
        (Call::Open(_), _) => (decisions, count) = (Decisions { choices: [0; MOST], strikes: [0; MOST] }, 0),
        (Call::CoilOn, _) => count = 0,
        (Call::Back, _) => {
            count = count.checked_sub(1).ok_or(13u32)?;
            decisions.turn(&session.events[count as usize]);
        }
        _ => (),
    }
    Ok((decisions, count))
}
