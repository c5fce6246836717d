//! Makes a failing case small: fewer calls, fields, rules, triples and settings, and plainer arguments, as long as it still fails. Calls
//! are left out, or folded into the session and the sheet that they lead to.

use crate::case::{enough, number, with_number, Case, Step};
use crate::runner::expected;
use crate::smaller::{with_sheet, without_field, without_setting};
use crate::spaces::Fill;
use crate::words::{session, words};
use belaykeel::{Event, Session};
use public_calls::Value;
use solver::{reading, State};
use std::cell::Cell;

/// How many cases are run at most to make one small.
const MOST_RUNS: usize = 20_000;

/// One attempt.
#[derive(Clone, Copy, Debug)]
enum Change {
    Fold(usize),
    Field(usize),
    Rule(usize),
    Triple(usize),
    Setting(usize, usize),
    Reach(u32),
    Number(usize, u32),
    TripleNumber(usize, u32),
    Byte(usize),
    EmptySession,
    Word(Holder, usize),
    OneSheet(usize),
    SameSheet(usize),
    Engine(usize),
    Order(usize),
    Spaces(usize),
    Zeros(usize),
    ShorterList(usize, usize),
    AllFields(Holder),
    Bit(Holder, u32),
}

/// What holds a session or a mask of selected fields: the case at its start, or a step.
type Holder = Option<usize>;

fn held(case: &mut Case, holder: Holder) -> Option<&mut Session> {
    let Some(step) = holder else {
        return Some(&mut case.session);
    };
    match case.steps.get_mut(step)? {
        Step::Session(session) => Some(session),
        _ => None,
    }
}

/// The places in which two sessions differ.
fn places(one: &Session, other: &Session) -> Vec<usize> {
    let (one, other) = (words(one), words(other));
    (0..one.len()).filter(|&place| one[place] != other[place]).collect()
}

/// All attempts on a case, so ordered that those still to come stay valid.
fn changes(case: &Case) -> Vec<Change> {
    let mut changes: Vec<Change> = (1..case.steps.len()).rev().map(Change::Fold).collect();
    changes.push(Change::EmptySession);
    changes.extend(places(&case.session, &Session::default()).into_iter().map(|place| Change::Word(None, place)));
    if let Ok(sheet) = reading::sheet(&case.sheet) {
        changes.extend((0..sheet.fields()).rev().map(Change::Field));
        changes.extend((0..sheet.rules.len()).rev().map(Change::Rule));
        changes.extend((0..sheet.triples.len()).rev().map(Change::Triple));
        let settings = |f: usize| (0..sheet.settings[f].len()).rev().map(move |v| Change::Setting(f, v));
        changes.extend((0..sheet.fields()).rev().flat_map(settings));
        changes.extend([24, 1, 2].map(Change::Reach));
        changes.extend((0..sheet.rules.len()).flat_map(|rule| [0, 1].map(|c| Change::Number(rule, c))));
        changes.extend((0..sheet.triples.len()).flat_map(|triple| [0, 1].map(|c| Change::TripleNumber(triple, c))));
    } else {
        changes.extend((0..case.sheet.len()).rev().map(Change::Byte));
    }
    for (step, made) in case.steps.iter().enumerate() {
        match made {
            Step::Call(given) => {
                changes.extend([Change::OneSheet(step), Change::SameSheet(step), Change::Engine(step), Change::Order(step)]);
                changes.extend([Change::Spaces(step), Change::Zeros(step)]);
                let longest = given.call.values().iter().map(length).max().unwrap_or(0);
                changes.extend((0..longest).rev().map(|entry| Change::ShorterList(step, entry)));
            }
            Step::Session(session) => {
                let differ = places(session, &Session::default());
                changes.extend(differ.into_iter().map(|place| Change::Word(Some(step), place)));
            }
            Step::Sheet(_) => (),
        }
    }
    for holder in [None].into_iter().chain((0..case.steps.len()).map(Some)) {
        changes.push(Change::AllFields(holder));
        changes.extend((0..u32::BITS).rev().map(|bit| Change::Bit(holder, bit)));
    }
    changes
}

/// How many entries a value has; 0 for a number.
fn length(value: &Value) -> usize {
    match value {
        Value::Number(_) => 0,
        Value::Sheet(bytes) | Value::Bytes(bytes) => bytes.len(),
        Value::Words(words) => words.len(),
    }
}

/// The value without an entry, where it has so many.
fn without_entry(value: Value, entry: usize) -> Value {
    match value {
        Value::Sheet(mut bytes) if entry < bytes.len() => {
            bytes.remove(entry);
            Value::Sheet(bytes)
        }
        Value::Bytes(mut bytes) if entry < bytes.len() => {
            bytes.remove(entry);
            Value::Bytes(bytes)
        }
        Value::Words(mut words) if entry < words.len() => {
            words.remove(entry);
            Value::Words(words)
        }
        value => value,
    }
}

/// Removes the entry at a place, where there is one.
fn remove<T>(list: &mut Vec<T>, at: usize) {
    if at < list.len() {
        list.remove(at);
    }
}

/// The case that begins with what its first steps lead to. Event places past the count are cleared.
fn folded(case: &Case, steps: usize) -> Option<Case> {
    let (first, rest) = case.steps.split_at_checked(steps)?;
    let mut state = State::new(&case.sheet, &words(&case.session));
    for step in first {
        match step {
            Step::Call(given) => state = expected(&state, given).state,
            Step::Session(session) => state = State::new(&state.sheet, &words(session)),
            Step::Sheet(sheet) => state.sheet.clone_from(sheet),
        }
    }
    let mut session = Box::new(session(&state.session));
    let past = session.past_events().len();
    session.events[past..].fill(Event::default());
    Some(Case { sheet: state.sheet, session, steps: rest.to_vec() })
}

fn applied(case: &Case, change: Change) -> Option<Case> {
    match change {
        Change::Fold(steps) => folded(case, steps),
        Change::Field(f) => without_field(case, f),
        Change::Setting(f, v) => without_setting(case, f, v),
        Change::Rule(r) => with_sheet(case, |sheet| remove(&mut sheet.rules, r)),
        Change::Triple(t) => with_sheet(case, |sheet| remove(&mut sheet.triples, t)),
        Change::Reach(reach) => with_sheet(case, |sheet| sheet.reach = reach),
        Change::Number(r, c) => with_sheet(case, |sheet| {
            sheet.rules.iter_mut().skip(r).take(1).filter(|rule| rule.kind > 0).for_each(|rule| rule.numbers[0] = c);
        }),
        Change::TripleNumber(t, c) => with_sheet(case, |sheet| sheet.triples.iter_mut().skip(t).take(1).for_each(|triple| triple.c = c)),
        Change::Byte(at) => {
            let mut shorter = case.clone();
            (at < case.sheet.len()).then(|| shorter.sheet.remove(at))?;
            Some(shorter)
        }
        Change::EmptySession => {
            let session = Box::new(Session { selected: case.session.selected, ..Session::default() });
            Some(Case { session, ..case.clone() })
        }
        Change::Word(holder, place) => {
            let mut plainer = case.clone();
            let held = held(&mut plainer, holder)?;
            let mut words = words(held);
            words[place] = 0;
            *held = session(&words);
            Some(plainer)
        }
        Change::AllFields(holder) | Change::Bit(holder, _) => plainer_mask(case, holder, change),
        Change::OneSheet(step)
        | Change::SameSheet(step)
        | Change::Engine(step)
        | Change::Order(step)
        | Change::Spaces(step)
        | Change::ShorterList(step, _)
        | Change::Zeros(step) => plainer(case, step, change),
    }
}

/// A mask made plain. The plainest of a session is 0, then every field; of a call every field; else the fewer bits the plainer.
fn plain_mask(mask: u32, all: u32, of_a_call: bool, change: Change) -> Option<u32> {
    match change {
        Change::AllFields(_) if of_a_call || mask != 0 => Some(all),
        Change::Bit(_, bit) if mask != all => Some(mask & !(1 << bit)),
        _ => None,
    }
}

/// The case with a mask of selected fields made plain.
fn plainer_mask(case: &Case, holder: Holder, change: Change) -> Option<Case> {
    let mut plainer = case.clone();
    let all = reading::sheet(&case.sheet).ok()?.all_fields();
    if let Some(Step::Call(given)) = holder.and_then(|step| plainer.steps.get_mut(step)) {
        let selected = plain_mask(number(&given.call, "selected")?, all, true, change)?;
        given.call = with_number(&given.call, "selected", selected);
    } else {
        let session = held(&mut plainer, holder)?;
        session.selected = plain_mask(session.selected, all, false, change)?;
    }
    Some(plainer)
}

/// The case with one argument of a call made plain.
fn plainer(case: &Case, step: usize, change: Change) -> Option<Case> {
    let mut plainer = case.clone();
    let Step::Call(given) = plainer.steps.get_mut(step)? else { return None };
    match change {
        Change::OneSheet(_) => plainer.sheet = given.sheet.take()?,
        Change::SameSheet(_) => drop(given.sheet.take()?),
        Change::Engine(_) => given.engine = 1,
        Change::Order(_) => given.order.sort_unstable(),
        Change::Spaces(_) => given.lengths.iter_mut().for_each(|(space, length)| *length = enough(space)),
        Change::ShorterList(_, entry) => {
            let values: Vec<Value> = given.call.values().into_iter().map(|value| without_entry(value, entry)).collect();
            given.call = given.call.with(&values);
        }
        _ => given.fill = Fill::Word(0),
    }
    Some(plainer)
}

/// A list without runs of its entries, long runs first, as long as it still fails.
fn shorter<T: Clone>(mut list: Vec<T>, fails: &dyn Fn(&[T]) -> bool) -> Vec<T> {
    let mut run = list.len();
    while run > 0 {
        let mut at = 0;
        while at < list.len() {
            let mut shorter = list.clone();
            shorter.drain(at..list.len().min(at + run));
            if fails(&shorter) {
                list = shorter;
            } else {
                at += run;
            }
        }
        run /= 2;
    }
    list
}

/// The smallest failing case that is found within so many runs.
pub fn shrink(mut case: Case, fails: &dyn Fn(&Case) -> bool) -> Case {
    let left = Cell::new(MOST_RUNS);
    let fails = |case: &Case| {
        left.set(left.get().saturating_sub(1));
        left.get() > 0 && fails(case)
    };
    loop {
        let before = case.clone();
        let with = |steps: &[Step]| Case { steps: steps.to_vec(), ..before.clone() };
        case.steps = shorter(case.steps, &|steps| fails(&with(steps)));
        for change in changes(&case) {
            if let Some(smaller) = applied(&case, change).filter(|smaller| *smaller != case) {
                if fails(&smaller) {
                    case = smaller;
                }
            }
        }
        if case == before {
            return case;
        }
    }
}
