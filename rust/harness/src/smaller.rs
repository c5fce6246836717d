//! A sheet without one of its fields or settings, and a case without it: sheet, calls, orders and sessions are renumbered together.

use crate::case::{number, setting, with_number, with_setting, Case, Given, Step};
use crate::sheets::bytes;
use belaykeel::{Event, Session, EVENTS};
use solver::{reading, Sheet, Triple};

/// Takes place `at` out of a count: what stands above moves down, and `at` itself is gone.
fn moved(place: u32, at: usize) -> Option<u32> {
    match (place as usize).cmp(&at) {
        std::cmp::Ordering::Less => Some(place),
        std::cmp::Ordering::Equal => None,
        std::cmp::Ordering::Greater => Some(place - 1),
    }
}

/// A mask without the bit at this place.
fn without_bit(mask: u32, at: usize) -> u32 {
    let low = mask & ((1 << at) - 1);
    low | (mask >> (at + 1)) << at
}

/// A sheet that can lose a part, with all that belongs to it.
pub trait Smaller {
    fn remove_field(&mut self, f: usize);
    fn remove_setting(&mut self, f: usize, v: usize);
}

impl Smaller for Sheet {
    fn remove_field(&mut self, f: usize) {
        self.settings.remove(f);
        self.rules.retain(|rule| rule.i != f && rule.j != f);
        for rule in &mut self.rules {
            rule.i -= usize::from(rule.i > f);
            rule.j -= usize::from(rule.j > f);
        }
        self.triples.retain(|triple| !triple.fields().contains(&f));
        for triple in &mut self.triples {
            let [i, j, k] = triple.fields().map(|g| g - usize::from(g > f));
            *triple = Triple { i, j, k, ..*triple };
        }
    }

    fn remove_setting(&mut self, f: usize, v: usize) {
        self.settings[f].remove(v);
        for rule in self.rules.iter_mut().filter(|rule| rule.kind == 0) {
            if rule.i == f {
                rule.numbers.remove(v);
            }
            if rule.j == f {
                rule.numbers.iter_mut().for_each(|mask| *mask = without_bit(*mask, v));
            }
        }
    }
}

/// What becomes of the places of a smaller sheet.
struct Moves<'a> {
    /// Where a setting moves to, if it stays.
    setting: &'a dyn Fn(u32, u32) -> Option<(u32, u32)>,
    order: &'a dyn Fn(&[u8]) -> Vec<u8>,
    /// Moves the masks of choices, or of strikes.
    masks: &'a dyn Fn(&mut [u32]),
    /// A mask of fields.
    fields: &'a dyn Fn(u32) -> u32,
}

impl Moves<'_> {
    fn case(&self, case: &Case, sheet: &Sheet) -> Case {
        let step = |step: &Step| match step {
            Step::Session(session) => Some(Step::Session(Box::new(self.session(session)))),
            Step::Call(given) => self.call(given).map(Step::Call),
            Step::Sheet(_) => Some(step.clone()),
        };
        let steps = case.steps.iter().filter_map(step).collect();
        Case { sheet: bytes(sheet), session: Box::new(self.session(&case.session)), steps }
    }

    fn call(&self, given: &Given) -> Option<Given> {
        let mut given = given.clone();
        if let Some(selected) = number(&given.call, "selected") {
            given.call = with_number(&given.call, "selected", (self.fields)(selected));
        }
        if let Some((field, position)) = setting(&given.call) {
            let (field, position) = (self.setting)(field, position)?;
            given.call = with_setting(&given.call, field, position);
        }
        given.order = (self.order)(&given.order);
        Some(given)
    }

    fn session(&self, session: &Session) -> Session {
        let mut after = session.clone();
        (self.masks)(&mut after.choices);
        (self.masks)(&mut after.strikes);
        after.selected = (self.fields)(session.selected);
        let mut kept = 0;
        for event in session.past_events() {
            if let Some((field, position)) = (self.setting)(event.field, event.position) {
                after.events[kept] = Event { field, position, ..*event };
                kept += 1;
            }
        }
        if session.count as usize <= EVENTS {
            after.count = kept as u32;
        }
        after
    }
}

/// The case without a field.
pub fn without_field(case: &Case, f: usize) -> Option<Case> {
    let mut sheet = reading::sheet(&case.sheet).ok().filter(|sheet| sheet.fields() > 1 && f < sheet.fields())?;
    sheet.remove_field(f);
    let setting = |field: u32, position: u32| moved(field, f).map(|field| (field, position));
    let order = |order: &[u8]| order.iter().filter_map(|&field| moved(field.into(), f)).map(|field| field as u8).collect();
    let masks = |masks: &mut [u32]| {
        masks.copy_within(f + 1.., f);
        masks.iter_mut().last().into_iter().for_each(|last| *last = 0);
    };
    let fields = |fields: u32| without_bit(fields, f);
    Some(Moves { setting: &setting, order: &order, masks: &masks, fields: &fields }.case(case, &sheet))
}

/// The case without a setting.
pub fn without_setting(case: &Case, f: usize, v: usize) -> Option<Case> {
    let mut sheet = reading::sheet(&case.sheet).ok()?;
    sheet.settings.get(f).filter(|settings| settings.len() > 1 && v < settings.len())?;
    sheet.remove_setting(f, v);
    let setting = |field: u32, position: u32| {
        let position = if field as usize == f { moved(position, v)? } else { position };
        Some((field, position))
    };
    let masks = |masks: &mut [u32]| masks[f] = without_bit(masks[f], v);
    Some(Moves { setting: &setting, order: &<[u8]>::to_vec, masks: &masks, fields: &|fields| fields }.case(case, &sheet))
}

/// The case with its sheet changed.
pub fn with_sheet(case: &Case, change: impl FnOnce(&mut Sheet)) -> Option<Case> {
    let mut sheet = reading::sheet(&case.sheet).ok()?;
    change(&mut sheet);
    Some(Case { sheet: bytes(&sheet), ..case.clone() })
}
