//! All that a call does: its answer, the state after it, and what it writes to lent spaces. One clause a call.

use crate::ledger::{Decision, Event, Ledger, Sort, Step};
use crate::reading;
use crate::session::{ledger, words_after, Words};
use crate::stages::{prepare, Arguments};
use public_calls::Call;

/// What there is between calls.
#[derive(Clone, Debug, PartialEq, Eq)]
pub struct State {
    /// The sheet in force: the bytes that calls are given.
    pub sheet: Vec<u8>,
    pub session: Box<Words>,
    /// Since an accepted open: the ledger, fed by the calls alone. Before it, and after a forged session, calls are judged by the session.
    pub ledger: Option<Ledger>,
}

/// What a call does.
#[derive(Clone, Debug, PartialEq, Eq)]
pub struct Effect {
    pub number: u32,
    /// What it answers beside the number.
    pub others: Vec<u64>,
    /// What there is after it.
    pub state: State,
    /// What it writes to the fronts of lent spaces, by their names. The rest of them stays, but in work spaces, which may hold anything
    /// after a call that 6 does not refuse.
    pub written: Vec<(&'static str, Vec<u32>)>,
}

/// The step of a call that takes just one.
pub fn step(call: &Call) -> Option<Step> {
    let choice = |field, position| Decision { sort: Sort::Choice, field, position };
    let strike = |field, position| Decision { sort: Sort::Strike, field, position };
    match *call {
        Call::Open(selected) => Some(Step::Open(selected)),
        Call::Show => Some(Step::Show),
        Call::Choose(f, v) => Some(Step::Add(Event::Added(choice(f, v)))),
        Call::Strike(f, v) => Some(Step::Add(Event::Added(strike(f, v)))),
        Call::WithdrawChoice(f, v) => Some(Step::Add(Event::Withdrawn(choice(f, v)))),
        Call::WithdrawStrike(f, v) => Some(Step::Add(Event::Withdrawn(strike(f, v)))),
        Call::Back => Some(Step::Back),
        Call::CoilOn => Some(Step::CoilOn),
        Call::Read | Call::Write(_) => None,
    }
}

impl State {
    /// A session with these words, on a sheet.
    pub fn new(sheet: &[u8], session: &Words) -> State {
        State { sheet: sheet.to_vec(), session: Box::new(*session), ledger: None }
    }

    /// All that a call does here.
    pub fn effect(&self, call: &Call, given: &Arguments) -> Effect {
        match (step(call), call) {
            (Some(step), _) => self.single(step, given),
            (None, Call::Read) => self.output(reading::read(given.sheet, given.length("output"))),
            (None, Call::Write(numbers)) => self.output(reading::write(numbers, given.length("output"))),
            (None, _) => unreachable!("{call:?} takes a step"),
        }
    }

    /// A call that changes nothing here, and answers and writes this.
    fn unchanged(&self, number: u32, others: Vec<u64>, written: Vec<(&'static str, Vec<u32>)>) -> Effect {
        Effect { number, others, state: self.clone(), written }
    }

    /// Reading and writing: the list at the front of the output, and its length; the length of a refusal is 0.
    fn output<W: Into<u32>>(&self, list: Result<Vec<W>, u32>) -> Effect {
        match list {
            Err(number) => self.unchanged(number, vec![0], vec![]),
            Ok(list) => self.unchanged(0, vec![list.len() as u64], vec![("output", list.into_iter().map(W::into).collect())]),
        }
    }

    /// A call of one step. A refused one changes nothing.
    fn single(&self, step: Step, given: &Arguments) -> Effect {
        let held = self.ledger.clone().or_else(|| ledger(&self.session));
        let settled = prepare(held.as_ref(), step, given).and_then(|(prepared, ledger)| prepared.settle(&ledger, step));
        match settled {
            Err(number) => self.unchanged(number, vec![], vec![]),
            Ok((next, offers)) => {
                let fed = self.ledger.is_some() || matches!(step, Step::Open(_));
                let session = Box::new(words_after(&self.session, &next));
                let state = State { sheet: self.sheet.clone(), session, ledger: fed.then_some(next) };
                Effect { number: 0, others: vec![], state, written: vec![("offers", offers)] }
            }
        }
    }
}
