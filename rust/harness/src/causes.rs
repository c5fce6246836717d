//! Ways to bring about each cause of a refusal, on calls that are accepted without them. One that stands later in the order of causes is
//! brought about first, so that each holds whatever the others are.

use crate::case::{with_number, Case, Given, Step};
use belaykeel::{Event, Session, EVENTS};
use public_calls::{Call, Name, Row};

/// A way to bring about a cause.
pub struct Cause {
    /// The number of the refusal.
    pub number: u32,
    pub says: &'static str,
    /// The calls of which it can be a cause, where their rows have the number.
    of: fn(&Row) -> bool,
    bring: fn(&mut Case),
}

/// Fields {1}, {1} and {5, 6}; the first two keep a distance of at least 0, and a triple allows everything. A byte for each number.
const SHEET: [u8; 19] = [3, 1, 1, 1, 1, 2, 5, 6, 24, 1, 0, 1, 3, 0, 1, 0, 1, 2, 9];
/// Where the kind and c of the rule stand.
const KIND: usize = 12;
const DISTANCE: usize = 13;
/// Where j and k of the triple stand, before the last number.
const SECOND: usize = SHEET.len() - 3;
/// The setting of the calls that take one.
const SETTING: (u32, u32) = (2, 0);
/// A strike that no call makes, for events.
const STRUCK: Event = Event { kind: 2, field: 2, position: 1 };

/// A call that is accepted, with its session.
pub fn accepted(name: Name) -> Case {
    let list = SHEET.map(u32::from).to_vec();
    let (field, position) = SETTING;
    let mut session = Session { selected: 0b111, count: 1, ..Session::default() };
    session.strikes[2] = 0b10;
    session.events[0] = STRUCK;
    let call = match name {
        Name::Open => Call::Open(0b101),
        Name::Show => Call::Show,
        Name::Choose => Call::Choose(field, position),
        Name::Strike => {
            session = Session { selected: 0b111, ..Session::default() };
            Call::Strike(field, position)
        }
        Name::WithdrawChoice => {
            session.choices[2] = 1;
            Call::WithdrawChoice(field, position)
        }
        Name::WithdrawStrike => {
            session.strikes[2] = 1;
            session.count = 0;
            Call::WithdrawStrike(field, position)
        }
        Name::Back => Call::Back,
        Name::CoilOn => Call::CoilOn,
        Name::Read => Call::Read,
        Name::Write => Call::Write(list.clone()),
    };
    let mut given = Given::plain(call, vec![2, 0, 1]);
    given.lengths.entry("output").and_modify(|length| *length = list.len());
    Case { sheet: SHEET.to_vec(), session: Box::new(session), steps: vec![Step::Call(given)] }
}

fn given(case: &mut Case) -> &mut Given {
    match &mut case.steps[..] {
        [Step::Call(given)] => given,
        _ => unreachable!("a case of one call"),
    }
}

/// Makes a lent space one word shorter.
fn shorten(case: &mut Case, space: &str) {
    given(case).lengths.get_mut(space).into_iter().for_each(|length| *length -= 1);
}

/// Changes the sheet that is read, or the list that is written, which has the same numbers.
fn change_sheet(case: &mut Case, bytes: fn(&mut Vec<u8>), numbers: fn(&mut Vec<u32>)) {
    match &mut given(case).call {
        Call::Write(list) => numbers(list),
        _ => bytes(&mut case.sheet),
    }
}

/// Sets a number of the call's own.
fn set(case: &mut Case, name: &str, number: u32) {
    let given = given(case);
    given.call = with_number(&given.call, name, number);
}

/// The latest event, where there is none the first.
fn latest(case: &mut Case) -> &mut Event {
    let session = &mut case.session;
    session.count = session.count.clamp(1, EVENTS as u32);
    &mut session.events[session.count as usize - 1]
}

/// The mask that has the decision of a call: that of choices, or that of strikes.
fn decision(case: &mut Case) -> &mut u32 {
    match given(case).call {
        Call::Choose(..) | Call::WithdrawChoice(..) => &mut case.session.choices[SETTING.0 as usize],
        _ => &mut case.session.strikes[SETTING.0 as usize],
    }
}

/// 64 events: a strike that is made and withdrawn again and again, and is not in force at the end.
fn fill_events(case: &mut Case) {
    for (place, event) in case.session.events.iter_mut().enumerate() {
        *event = Event { kind: if place % 2 == 0 { 2 } else { 4 }, ..STRUCK };
    }
    case.session.count = EVENTS as u32;
    case.session.strikes[STRUCK.field as usize] &= !(1 << STRUCK.position);
}

fn with_session(row: &Row) -> bool {
    row.has("session")
}

fn any(_: &Row) -> bool {
    true
}

/// Every way, in no order.
#[rustfmt::skip]
pub static CAUSES: &[Cause] = &[
    Cause { number: 6, says: "the offers list is short", of: |row| row.has("offers"), bring: |case| shorten(case, "offers") },
    Cause { number: 6, says: "the first work space is short", of: |row| row.has("rows"), bring: |case| shorten(case, "rows") },
    Cause { number: 6, says: "the second work space is short", of: |row| row.has("memory"), bring: |case| shorten(case, "memory") },
    Cause { number: 6, says: "the output is short", of: |row| row.has("output"), bring: |case| shorten(case, "output") },
    Cause { number: 1, says: "the sheet ends early", of: any,
        bring: |case| change_sheet(case, |bytes| bytes.truncate(SHEET.len() - 1), |numbers| numbers.truncate(SHEET.len() - 1)) },
    Cause { number: 2, says: "a number ends with a group of 0", of: any,
        bring: |case| change_sheet(case, |bytes| { bytes.pop(); bytes.extend([0x89, 0x00]) }, |_| ()) },
    Cause { number: 3, says: "the last number is out of range", of: any,
        bring: |case| change_sheet(case, |bytes| { bytes.pop(); bytes.extend([0xC1, 0x84, 0x3D]) },
            |numbers| { numbers.pop(); numbers.push(1_000_001) }) },
    Cause { number: 4, says: "the fields of the triple fall", of: any,
        bring: |case| change_sheet(case, |bytes| bytes.swap(SECOND, SECOND + 1), |numbers| numbers.swap(SECOND, SECOND + 1)) },
    Cause { number: 5, says: "something follows the sheet", of: any,
        bring: |case| change_sheet(case, |bytes| bytes.push(0), |numbers| numbers.push(0)) },
    Cause { number: 20, says: "a rule of kind 2 is written", of: any,
        bring: |case| change_sheet(case, |_| (), |numbers| numbers[KIND] = 2) },
    Cause { number: 15, says: "no field is selected", of: with_session, bring: |case| case.session.selected = 0 },
    Cause { number: 15, says: "a field beyond the sheet is selected", of: with_session, bring: |case| case.session.selected = 0b1100 },
    Cause { number: 15, says: "a field beyond the sheet is struck", of: with_session, bring: |case| case.session.strikes[23] = 1 },
    Cause { number: 15, says: "a setting that is not there is chosen", of: with_session, bring: |case| case.session.choices[0] = 0b10 },
    Cause { number: 15, says: "there are 65 events", of: with_session, bring: |case| case.session.count = 65 },
    Cause { number: 15, says: "an event has kind 0", of: with_session, bring: |case| *latest(case) = Event { kind: 0, ..STRUCK } },
    Cause { number: 15, says: "an event has kind 5", of: with_session, bring: |case| *latest(case) = Event { kind: 5, ..STRUCK } },
    Cause { number: 15, says: "an event has no field", of: with_session, bring: |case| *latest(case) = Event { field: 3, ..STRUCK } },
    Cause { number: 15, says: "an event has no position", of: with_session, bring: |case| *latest(case) = Event { position: 2, ..STRUCK } },
    Cause { number: 15, says: "what was added is not in force", of: with_session,
        bring: |case| *latest(case) = Event { kind: 1, field: 1, position: 0 } },
    Cause { number: 15, says: "what was withdrawn is in force", of: with_session,
        bring: |case| { *latest(case) = Event { kind: 3, field: 1, position: 0 }; case.session.choices[1] = 1 } },
    Cause { number: 18, says: "no field is selected", of: any, bring: |case| set(case, "selected", 0) },
    Cause { number: 18, says: "the first field beyond the sheet is selected", of: any, bring: |case| set(case, "selected", 0b1001) },
    Cause { number: 18, says: "every bit is selected", of: any, bring: |case| set(case, "selected", u32::MAX) },
    Cause { number: 7, says: "the engine is 0", of: |row| row.has("engine"), bring: |case| given(case).engine = 0 },
    Cause { number: 7, says: "the engine is 4", of: |row| row.has("engine"), bring: |case| given(case).engine = 4 },
    Cause { number: 7, says: "the field is not on the sheet", of: |row| row.has("field"), bring: |case| set(case, "field", 3) },
    Cause { number: 7, says: "the position is not on the sheet", of: |row| row.has("position"), bring: |case| set(case, "position", 2) },
    Cause { number: 9, says: "the order has a field twice", of: any, bring: |case| given(case).order = vec![0, 1, 1] },
    Cause { number: 9, says: "the order is short", of: any, bring: |case| given(case).order = vec![2, 1] },
    Cause { number: 9, says: "the order is long", of: any, bring: |case| given(case).order = vec![2, 1, 0, 0] },
    Cause { number: 9, says: "the order has a field beyond the sheet", of: any, bring: |case| given(case).order = vec![0, 1, 3] },
    Cause { number: 10, says: "the decision is in force", of: any, bring: |case| *decision(case) |= 1 << SETTING.1 },
    Cause { number: 11, says: "the decision is not in force", of: any, bring: |case| *decision(case) &= !(1 << SETTING.1) },
    Cause { number: 13, says: "there is no event", of: any, bring: |case| case.session.count = 0 },
    Cause { number: 12, says: "there are 64 events", of: any, bring: fill_events },
    Cause { number: 14, says: "the rule allows nothing", of: any,
        bring: |case| case.sheet.get_mut(DISTANCE).into_iter().for_each(|c| *c = 1) },
    Cause { number: 14, says: "a field is struck whole", of: |row| row.has("session") && !row.has("selected"),
        bring: |case| case.session.strikes[0] = 1 },
];

/// The causes of a call.
pub fn causes(name: Name) -> Vec<&'static Cause> {
    let row = name.row();
    CAUSES.iter().filter(|cause| row.stage(cause.number).is_some() && (cause.of)(row)).collect()
}

/// The call with these causes, and the number that must refuse it: that of the first stage.
pub fn with_causes(name: Name, causes: &[&Cause]) -> (Case, u32) {
    let stage = |cause: &&Cause| name.row().stage(cause.number);
    let mut sorted = causes.to_vec();
    sorted.sort_by_key(stage);
    let mut case = accepted(name);
    sorted.iter().rev().for_each(|cause| (cause.bring)(&mut case));
    (case, sorted.first().map_or(0, |cause| cause.number))
}
