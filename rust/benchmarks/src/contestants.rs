//! Those that are compared: the proved library with each engine, and plain Rust.

use crate::measure::{timed, Contestant, Run};
use crate::plain::calls::Plain;
use crate::plain::methods;
use crate::proved::Proved;
use crate::role::Role;
use crate::task::{Job, Spaces, Task};
use crate::Offers;
use belaykeel::raw::OFFERS_WORDS;
use belaykeel::{Engine, Session};
use harness::library::Library;
use harness::linked::Linked;
use std::hint::black_box;

/// All engines for sheets of at most so many fields, the proved ones first.
pub fn engines(fields: usize) -> Vec<Contestant<Job, Offers>> {
    let mut all = vec![];
    for engine in Engine::ALL {
        let mut proved = Proved::default();
        all.push(Contestant::new(Role::Proved(engine), move |job| {
            let (answer, time) = proved.offers(engine, job);
            Run { answer, tests: 0, time }
        }));
    }
    for (role, mut method) in methods(fields) {
        all.push(Contestant::new(role, move |job| {
            let (found, time) = timed(|| method(job));
            Run { answer: found.offers, tests: found.tests, time }
        }));
    }
    all
}

/// What a call leaves: its number, the session and the offers list.
pub type Left = (u32, Session, [u32; OFFERS_WORDS]);

/// What the offers list holds before a call.
const NO_OFFERS: u32 = 0xA5C3_0F1E;

/// All libraries for sheets of at most so many fields, the proved one first.
pub fn libraries(fields: usize) -> Vec<Contestant<Task, Left>> {
    let proved = Engine::ALL.into_iter().map(|engine| library(Role::Proved(engine), engine, Linked));
    let plain = methods(fields).into_iter().map(|(role, method)| library(role, Engine::Sac1, Plain::new(method)));
    proved.chain(plain).collect()
}

/// A library that makes each call on a copy of the task's session. The time is that of the call alone.
fn library(role: Role, engine: Engine, mut library: impl Library + 'static) -> Contestant<Task, Left> {
    let mut spaces = Spaces::default();
    Contestant::new(role, move |task: &Task| {
        spaces.offers.fill(NO_OFFERS);
        let mut session = task.session.clone();
        let mut lent = task.lent(engine, black_box(&mut session), &mut spaces);
        let (answer, time) = timed(|| library.call(&task.call, &mut lent));
        assert_eq!(answer.number, task.number, "{role}: {task:?}");
        Run { answer: (answer.number, session, spaces.offers), tests: 0, time }
    })
}
