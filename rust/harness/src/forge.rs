//! Forged sessions: well-formed ones that calls may never reach, damaged ones and plain noise.

use crate::selections::{bad, good};
use crate::sheets::edge;
use crate::words::{session, words};
use crate::Random;
use belaykeel::{Event, Session, EVENTS};
use solver::session::{words_after, WORDS};
use solver::{Decision, Ledger, Sheet, Sort};

/// Counts of events that no session may have.
const TOO_MANY: [u32; 5] = [65, 66, 255, 1 << 31, u32::MAX];

/// A session for this sheet, often a malformed one.
pub fn forged(random: &mut Random, sheet: &Sheet) -> Box<Session> {
    let mut session = well_formed(random, sheet);
    match random.below(10) {
        0 => return noise(random),
        1..=4 => (),
        5 => session.selected = bad(random, sheet.fields()),
        6 => {
            session = with_events(random, sheet, EVENTS);
            session.count = random.pick(&TOO_MANY);
        }
        _ => (0..random.from(1, 2)).for_each(|_| damage(random, sheet, &mut session)),
    }
    session
}

/// Any words at all.
pub fn noise(random: &mut Random) -> Box<Session> {
    let mut words = [0; WORDS];
    words.fill_with(|| random.word() as u32);
    let mut session = Box::new(session(&words));
    if random.one_in(2) {
        session.count = random.below(70) as u32;
    }
    session
}

/// A session with no decisions and no events, as an open leaves it.
pub fn opened(random: &mut Random, sheet: &Sheet) -> Box<Session> {
    Box::new(Session { selected: good(random, sheet.fields()), ..Session::default() })
}

/// A setting of the sheet.
pub fn setting(random: &mut Random, sheet: &Sheet) -> (u32, u32) {
    let field = random.below(sheet.fields());
    (field as u32, random.below(sheet.settings[field].len()) as u32)
}

fn decision(random: &mut Random, sheet: &Sheet) -> Decision {
    let (field, position) = setting(random, sheet);
    let sort = if random.one_in(6) { Sort::Choice } else { Sort::Strike };
    Decision { sort, field, position }
}

/// A session with some decisions, and events that lead to them.
pub fn well_formed(random: &mut Random, sheet: &Sheet) -> Box<Session> {
    let count = random.pick(&[0, 1, 3, 10, 62, 63, 64, 64]);
    with_events(random, sheet, count)
}

/// The same with so many events. Its places past the count hold noise.
fn with_events(random: &mut Random, sheet: &Sheet, count: usize) -> Box<Session> {
    let mut ledger = Ledger { selected: good(random, sheet.fields()), ..Ledger::default() };
    for _ in 0..random.pick(&[0, 0, 0, 1, 2, 8]) {
        ledger.decisions.insert(decision(random, sheet));
    }
    let few: Vec<Decision> = (0..random.pick(&[1, 2, 2, 3, 20])).map(|_| decision(random, sheet)).collect();
    for _ in 0..count {
        let decision = random.pick(&few);
        if ledger.decisions.remove(&decision) {
            ledger.events.push(solver::Event::Withdrawn(decision));
        } else {
            ledger.decisions.insert(decision);
            ledger.events.push(solver::Event::Added(decision));
        }
    }
    Box::new(session(&words_after(&words(&noise(random)), &ledger)))
}

/// Changes one thing, often so that the session is malformed just by that.
fn damage(random: &mut Random, sheet: &Sheet, session: &mut Session) {
    let count = (session.count as usize).min(EVENTS);
    let n = sheet.fields();
    let field = random.below(n);
    let d = sheet.settings[field].len() as u32;
    let place = random.below(count.max(1));
    let (event, other) = (session.events[place], random.below(EVENTS));
    let masks = if random.one_in(2) { &mut session.choices } else { &mut session.strikes };
    match random.below(13) {
        0 => masks[random.below(24)] ^= 1 << random.below(32),
        1 => masks[field] |= 1 << d,
        2 => masks[field] ^= 1 << random.below(d as usize),
        3 if n < 24 => masks[n] = 1,
        4 => session.count = random.pick(&[63, 64, 65, 66, 255, 1 << 31, u32::MAX]),
        5 => session.count = random.below(65) as u32,
        6 => session.events[place].kind = random.pick(&[0, 1, 2, 3, 4, 5, 255, 257, u32::MAX]),
        7 => session.events[place].field = random.pick(&[0, n as u32, 24, 31, 32, u32::MAX]),
        8 => session.events[place] = Event { field: field as u32, position: d, ..event },
        9 => session.events[place].position = random.pick(&[0, 1, d, 24, 31, 32, 33, u32::MAX]),
        10 => session.events[other] = event,
        11 => session.selected = good(random, n),
        _ => any_word(random, session),
    }
}

/// Changes any word.
fn any_word(random: &mut Random, held: &mut Session) {
    let mut changed = words(held);
    changed[random.below(WORDS)] = edge(random);
    *held = session(&changed);
}
