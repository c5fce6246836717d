//! The jobs of the library in plain Rust: sheets read and written, offers found by four ways of closing, whole calls.

mod ac4;
pub mod calls;
mod closing;
mod engines;
mod lanes;
mod network;
mod pairs;
pub mod read_write;
mod tables;
mod triple_tables;

use crate::role::{Role, BEFORE};
use crate::task::Job;
use crate::{Offers, MOST};
use ac4::Ac4;
use closing::Closing;
use engines::Solver;
use lanes::Lanes;
use pairs::{BranchFree, Branching, Pairs};

/// The offers of a job, and the singleton tests that they took.
pub struct Found {
    pub offers: Offers,
    pub tests: u64,
}

/// A method with its tables, which are made once. It goes from the list of numbers to the offers.
pub type Method = Box<dyn FnMut(&Job) -> Found>;

/// The plain methods for sheets of at most so many fields.
pub fn methods(fields: usize) -> Vec<(Role, Method)> {
    let mut all = vec![(Role::Branching, sac1::<Pairs<Branching>>()), (Role::Ac4, sac1::<Ac4>())];
    all.extend(BEFORE.into_iter().zip(three::<Pairs<BranchFree>>()));
    all.extend([Role::AtOnce, Role::Sac2, Role::Queue].into_iter().zip(match fields {
        0..=8 => three::<Lanes<8, 3>>(),
        9..=12 => three::<Lanes<12, 4>>(),
        13..=16 => three::<Lanes<16, 4>>(),
        _ => three::<Lanes<24, 4>>(),
    }));
    all
}

fn sac1<C: Closing + 'static>() -> Method {
    let mut solver = Solver::<C>::default();
    Box::new(move |job| solver.sac1(job))
}

/// SAC-1, SAC-2 and the queue over one way of closing.
fn three<C: Closing + 'static>() -> [Method; 3] {
    let mut memory = Box::new([[[0; MOST]; MOST]; MOST]);
    let mut sac2 = Solver::<C>::default();
    let mut queue = Solver::<C>::default();
    [sac1::<C>(), Box::new(move |job| sac2.sac2(&mut memory, job)), Box::new(move |job| queue.queued(job))]
}
