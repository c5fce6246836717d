//! The ledger and its steps.

use crate::network::Set;
use crate::sheet::Sheet;
use crate::MOST_EVENTS;
use std::collections::BTreeSet;

#[derive(Clone, Copy, Debug, PartialEq, Eq, PartialOrd, Ord)]
pub enum Sort {
    Choice,
    Strike,
}

/// A choice or a strike of a setting.
#[derive(Clone, Copy, Debug, PartialEq, Eq, PartialOrd, Ord)]
pub struct Decision {
    pub sort: Sort,
    pub field: u32,
    pub position: u32,
}

#[derive(Clone, Copy, Debug, PartialEq, Eq)]
pub enum Event {
    Added(Decision),
    Withdrawn(Decision),
}

/// A step of the ledger.
#[derive(Clone, Copy, Debug, PartialEq, Eq)]
pub enum Step {
    /// No decisions, no events, and this mask of selected fields.
    Open(u32),
    /// No change.
    Show,
    /// The decision of the event comes in or goes out, and the event is added.
    Add(Event),
    /// The latest event goes and is reversed.
    Back,
    /// The events go.
    CoilOn,
}

/// The mask of selected fields, the decisions in force and the past events, oldest first.
#[derive(Clone, Debug, Default, PartialEq, Eq)]
pub struct Ledger {
    pub selected: u32,
    pub decisions: BTreeSet<Decision>,
    pub events: Vec<Event>,
}

impl Event {
    pub fn decision(self) -> Decision {
        match self {
            Event::Added(decision) | Event::Withdrawn(decision) => decision,
        }
    }
}

impl Ledger {
    /// The set that the decisions leave before anything is tested.
    pub fn start_set(&self, full: &Set) -> Set {
        let mut start = *full;
        for (f, domain) in start.iter_mut().enumerate() {
            let mask = |sort| {
                let held = self.decisions.iter().filter(|decision| decision.sort == sort && decision.field as usize == f);
                held.map(|decision| 1u32 << decision.position).sum::<u32>()
            };
            let choices = mask(Sort::Choice);
            *domain &= !mask(Sort::Strike);
            match choices.count_ones() {
                0 => (),
                1 => *domain &= choices,
                _ => *domain = 0,
            }
        }
        start
    }

    /// The ledger after a step, or the cause against it: 10, 11, 13 or 12.
    pub fn after(&self, step: Step) -> Result<Ledger, u32> {
        let mut next = self.clone();
        match step {
            Step::Open(selected) => next = Ledger { selected, ..Ledger::default() },
            Step::Show => (),
            Step::Add(event) => next.add(event)?,
            Step::Back => {
                let event = next.events.pop().ok_or(13u32)?;
                next.reverse(event);
            }
            Step::CoilOn => next.events.clear(),
        }
        Ok(next)
    }

    fn add(&mut self, event: Event) -> Result<(), u32> {
        match event {
            Event::Added(decision) if !self.decisions.insert(decision) => return Err(10),
            Event::Withdrawn(decision) if !self.decisions.remove(&decision) => return Err(11),
            _ => (),
        }
        if self.events.len() == MOST_EVENTS {
            return Err(12);
        }
        self.events.push(event);
        Ok(())
    }

    /// Reverses an event: an added decision goes, a withdrawn one returns. False where that is not possible.
    fn reverse(&mut self, event: Event) -> bool {
        match event {
            Event::Added(decision) => self.decisions.remove(&decision),
            Event::Withdrawn(decision) => self.decisions.insert(decision),
        }
    }

    /// Whether it is one that a sheet cannot have.
    pub fn malformed(&self, sheet: &Sheet) -> bool {
        let on_sheet = |decision: &Decision| sheet.has(decision.field, decision.position);
        let mut past = self.clone();
        self.events.len() > MOST_EVENTS
            || !sheet.selects(self.selected)
            || !self.decisions.iter().all(on_sheet)
            || !self.events.iter().all(|event| on_sheet(&event.decision()))
            || !self.events.iter().rev().all(|&event| past.reverse(event))
    }
}
