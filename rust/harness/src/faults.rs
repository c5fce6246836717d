//! Libraries with a planted fault, to see that the comparison finds it. A fault is a row, with the paragraph of docs/SCOPE.md it breaks.

pub mod counting;
mod groups;
mod judging;
mod making;
pub mod offers;
mod page;
mod remembering;
mod rules;
mod selecting;
mod sessions;
mod sheets;
mod spaces;
mod starting;
mod triples;
mod writing;

use crate::library::{Answer, Lent, Library};
use crate::linked::Linked;
use belaykeel::Session;
use making::answer;
use page::Page;
use public_calls::{Call, Name};
use remembering::Memory;
use solver::Set;

/// A row: a fault of the library.
pub struct Fault {
    pub name: &'static str,
    /// The paragraph of docs/SCOPE.md that it breaks.
    pub promise: &'static str,
    pub says: &'static str,
    pub how: How,
}

/// What the faulty library does; in all else it is the linked one.
#[derive(Clone, Copy)]
pub enum How {
    /// Writes these offers where a call that gives offers is accepted; where there are none, those of the library stay.
    Offers(fn(&Page) -> Option<Set>),
    /// Spoils the session after this call, where it is accepted, by the session before it and the one after it.
    Session(Name, fn(&Session, &mut Session)),
    /// Spoils what an accepted call left, by the session before it.
    Accepted(fn(&Session, &Call, &mut Lent)),
    /// Spoils what a call left that a number refused.
    Refused(fn(u32, &Call, &mut Lent)),
    /// Answers another number.
    Number(fn(u32, &Call, &mut Lent) -> u32),
    /// Answers another number to a call with these bytes of a sheet.
    SheetNumber(fn(u32, &[u8]) -> u32),
    /// Reads bytes of a sheet that this number refused as others.
    ReadAs(u32, fn(&[u8]) -> Vec<u8>),
    /// Makes a call that this number refused in another way.
    Instead(u32, fn(&Call, &mut Lent) -> Answer),
    /// Makes every call in its own way.
    Makes(fn(&mut Memory, &Call, &mut Lent) -> Answer),
}

/// The linked library with a fault.
pub struct Planted {
    how: How,
    memory: Memory,
}

impl Planted {
    pub fn new(fault: &'static Fault) -> Planted {
        Planted { how: fault.how, memory: Memory::default() }
    }
}

impl Library for Planted {
    fn call(&mut self, call: &Call, lent: &mut Lent) -> Answer {
        if let How::Makes(make) = self.how {
            return make(&mut self.memory, call, lent);
        }
        let before = lent.session.clone();
        let answered = Linked.call(call, lent);
        match (self.how, answered.number) {
            (How::Offers(offers), 0) if call.row().has("offers") => write(offers, call, lent),
            (How::Session(name, spoil), 0) if call.name() == name => spoil(&before, lent.session),
            (How::Accepted(spoil), 0) => spoil(&before, call, lent),
            (How::Refused(spoil), number) if number > 0 => spoil(number, call, lent),
            (How::Number(judge), number) => return other(judge(number, call, lent), call, answered),
            (How::SheetNumber(judge), number) if call.row().has("sheet") => return other(judge(number, lent.sheet), call, answered),
            (How::ReadAs(refused, read), number) if number == refused && call.row().has("sheet") => {
                let sheet = &read(lent.sheet);
                return Linked.call(call, &mut Lent { sheet, ..lent.again() });
            }
            (How::Instead(refused, make), number) if number == refused => return make(call, lent),
            _ => (),
        }
        answered
    }
}

/// Writes other offers of an accepted call, where there are some.
fn write(offers: fn(&Page) -> Option<Set>, call: &Call, lent: &mut Lent) {
    let page = Page::of(call, lent);
    if let Some(set) = offers(&page) {
        let n = page.sheet.fields();
        lent.offers[..n].copy_from_slice(&set[..n]);
    }
}

/// What is answered with this number.
fn other(number: u32, call: &Call, answered: Answer) -> Answer {
    if number == answered.number {
        answered
    } else {
        answer(call, number)
    }
}

/// Every row, subject by subject.
pub fn all() -> impl Iterator<Item = &'static Fault> {
    let engines = [offers::ROWS, selecting::ROWS, rules::ROWS, counting::ROWS, triples::ROWS, starting::ROWS, remembering::ROWS];
    let calls = [sessions::ROWS, judging::ROWS, spaces::ROWS, sheets::ROWS, writing::ROWS];
    engines.into_iter().chain(calls).flatten()
}

/// The paragraphs of sections 2 to 9 and 11 of docs/SCOPE.md that no row breaks, and why.
pub const WITHOUT: &[(&str, &str)] = &[
    ("3.6", "a definition, which no call uses; 10.5 does"),
    ("7.6", "says what the ledger is given, not what a call does"),
    ("11.4", "the program, which is no call"),
];
