//! Runs the steps of a case and compares the whole effect of each call with the solver's: the number and what else it answers, the whole
//! session, every lent space and the guards around it.

use crate::case::{Case, Given, Step};
use crate::library::{Answer, Lent, Library};
use crate::spaces::{Fill, Guarded, GuardedSpace};
use crate::words::words;
use belaykeel::Session;
use solver::{Arguments, Effect, State};
use std::collections::BTreeMap;

pub struct Runner<'l> {
    library: &'l mut dyn Library,
    session: Session,
    /// What the solver has after the calls so far, the sheet in force among it.
    state: State,
    spaces: Spaces,
    calls: u64,
}

/// The lent spaces.
#[derive(Default)]
struct Spaces {
    offers: Guarded<u32>,
    rows: Guarded<u32>,
    memory: Guarded<u32>,
    /// Those that not every call with a session has.
    own: BTreeMap<&'static str, GuardedSpace>,
}

/// The spaces that every call with a session has.
const SHARED: [&str; 3] = ["offers", "rows", "memory"];

impl Spaces {
    /// Makes the spaces of a call. Work spaces are filled as it says, others with noise.
    fn prepare(&mut self, given: &Given, seed: u64) {
        self.offers.prepare(given.length("offers"), Fill::Noise(seed));
        self.rows.prepare(given.length("rows"), given.fill);
        self.memory.prepare(given.length("memory"), given.fill);
        self.own.clear();
        for parameter in given.call.row().parameters.iter().filter(|parameter| parameter.sort.is_lent()) {
            if !SHARED.contains(&parameter.name) {
                let mut space = GuardedSpace::of(parameter.sort);
                space.prepare(given.length(parameter.name), Fill::Noise(seed));
                self.own.insert(parameter.name, space);
            }
        }
    }

    /// What each space holds that the call must leave in a certain way, by its name.
    fn held(&mut self, with_work_spaces: bool) -> Vec<(&'static str, Vec<u32>)> {
        let mut held = vec![("offers", self.offers.lent().to_vec())];
        if with_work_spaces {
            held.extend([("rows", self.rows.lent().to_vec()), ("memory", self.memory.lent().to_vec())]);
        }
        held.extend(self.own.iter_mut().map(|(name, space)| (*name, space.held())));
        held
    }

    fn guards_whole(&self) -> bool {
        [&self.offers, &self.rows, &self.memory].into_iter().all(Guarded::guards_whole) && self.own.values().all(GuardedSpace::guards_whole)
    }
}

impl<'l> Runner<'l> {
    pub fn new(library: &'l mut dyn Library, sheet: &[u8], session: &Session) -> Runner<'l> {
        let state = State::new(sheet, &words(session));
        Runner { library, session: session.clone(), state, spaces: Spaces::default(), calls: 0 }
    }

    /// The session as the last call left it.
    pub fn session(&self) -> &Session {
        &self.session
    }

    /// The sheet in force.
    pub fn sheet(&self) -> &[u8] {
        &self.state.sheet
    }

    /// Makes a step. Gives the number of its call, or says what differs.
    pub fn step(&mut self, step: &Step) -> Result<Option<u32>, String> {
        match step {
            Step::Session(session) => {
                self.session = (**session).clone();
                self.state = State::new(&self.state.sheet, &words(session));
                Ok(None)
            }
            Step::Sheet(sheet) => {
                self.state.sheet.clone_from(sheet);
                Ok(None)
            }
            Step::Call(given) => self.call(given).map(Some),
        }
    }

    fn call(&mut self, given: &Given) -> Result<u32, String> {
        self.calls += 1;
        self.spaces.prepare(given, self.calls);
        let sheet = given.sheet.as_ref().unwrap_or(&self.state.sheet).clone();
        let effect = expected(&self.state, given);
        let before = self.spaces.held(effect.number == 6);
        let Spaces { offers, rows, memory, own } = &mut self.spaces;
        let answer = self.library.call(
            &given.call,
            &mut Lent {
                session: &mut self.session,
                sheet: &sheet,
                engine: given.engine,
                order: &given.order,
                offers: offers.lent(),
                rows: rows.lent(),
                memory: memory.lent(),
                own: own.iter_mut().map(|(name, space)| (*name, space.lent())).collect(),
            },
        );
        self.compare(given, &answer, &effect, before)?;
        self.state = effect.state;
        Ok(answer.number)
    }

    fn compare(&mut self, given: &Given, answer: &Answer, effect: &Effect, before: Vec<(&str, Vec<u32>)>) -> Result<(), String> {
        let number = answer.number;
        if number != effect.number {
            return Err(format!("the number is {number}, expected {}", effect.number));
        }
        if answer.others != effect.others {
            let names = given.call.row().others;
            return Err(format!("number {number}, but {names:?} are {:?}, expected {:?}", answer.others, effect.others));
        }
        if let Some(differs) = difference(&words(&self.session), &effect.state.session[..]) {
            return Err(format!("number {number}, but of the session {differs}"));
        }
        let left = self.spaces.held(number == 6);
        for ((name, mut expected), (_, is)) in before.into_iter().zip(left) {
            if let Some((_, front)) = effect.written.iter().find(|(written, _)| *written == name) {
                expected[..front.len()].copy_from_slice(front);
            }
            if let Some(differs) = difference(&is, &expected) {
                return Err(format!("number {number}, but of {name} {differs}"));
            }
        }
        if !self.spaces.guards_whole() {
            return Err("a word outside a lent space is changed".into());
        }
        Ok(())
    }
}

/// All that a call should do to a state.
pub fn expected(state: &State, given: &Given) -> Effect {
    let sheet = given.sheet.as_ref().unwrap_or(&state.sheet);
    let arguments = Arguments { sheet, engine: given.engine, order: &given.order, lengths: given.lengths.clone() };
    state.effect(&given.call, &arguments)
}

/// The first word that differs.
fn difference(is: &[u32], expected: &[u32]) -> Option<String> {
    let place = is.iter().zip(expected).position(|(is, expected)| is != expected)?;
    Some(format!("word {place} is {:#x}, expected {:#x}", is[place], expected[place]))
}

/// Runs a whole case. Gives the step that differs and how.
pub fn run(library: &mut dyn Library, case: &Case) -> Result<(), (usize, String)> {
    let mut runner = Runner::new(library, &case.sheet, &case.session);
    for (place, step) in case.steps.iter().enumerate() {
        runner.step(step).map_err(|differs| (place, differs))?;
    }
    Ok(())
}
