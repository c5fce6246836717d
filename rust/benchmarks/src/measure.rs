//! Times contestants on the same tasks, and compares what they answer.

use crate::effort::Effort;
use crate::role::Role;
use std::fmt::Debug;
use std::hint::black_box;
use std::time::Instant;

/// Does a task once.
type Runner<T, A> = Box<dyn FnMut(&T) -> Run<A>>;

/// One of those that do the same tasks.
pub struct Contestant<T, A> {
    pub role: Role,
    run: Runner<T, A>,
}

impl<T, A> Contestant<T, A> {
    pub fn new(role: Role, run: impl FnMut(&T) -> Run<A> + 'static) -> Contestant<T, A> {
        Contestant { role, run: Box::new(run) }
    }
}

/// What a contestant answered.
pub struct Run<A> {
    pub answer: A,
    /// The singleton tests that it took, where they are counted.
    pub tests: u64,
    /// In microseconds.
    pub time: f64,
}

/// What a call gives, and its microseconds.
#[inline(always)]
pub fn timed<A>(call: impl FnOnce() -> A) -> (A, f64) {
    let start = Instant::now();
    let answer = black_box(call());
    (answer, start.elapsed().as_secs_f64() * 1e6)
}

/// Runs every contestant once; a different answer is a panic that shows the task.
pub fn agree<T: Debug, A: PartialEq + Debug>(contestants: &mut [Contestant<T, A>], task: &T) -> Vec<Run<A>> {
    let mut runs: Vec<Run<A>> = vec![];
    for contestant in contestants {
        let run = (contestant.run)(task);
        let first = runs.first().unwrap_or(&run);
        assert_eq!(run.answer, first.answer, "{}: {task:?}", contestant.role);
        runs.push(run);
    }
    runs
}

const MOST_ROUNDS: usize = 1000;

/// Microseconds of each contestant: its best of several rounds, in each of which the contestants run one after the other.
fn best_times<T, A>(contestants: &mut [Contestant<T, A>], task: &T, effort: Effort) -> Vec<f64> {
    let mut best = vec![f64::MAX; contestants.len()];
    for _ in effort.rounds().take(MOST_ROUNDS) {
        for (contestant, best) in contestants.iter_mut().zip(&mut best) {
            *best = best.min((contestant.run)(black_box(task)).time);
        }
    }
    best
}

/// What a contestant took, task by task.
pub struct Column {
    pub role: Role,
    /// In microseconds.
    pub times: Vec<f64>,
    pub tests: Vec<f64>,
}

impl Column {
    /// The median of the times.
    pub fn median(&self) -> f64 {
        median(&self.times)
    }

    /// Task by task, this time over another.
    pub fn ratios(&self, under: &Column) -> Vec<f64> {
        self.times.iter().zip(&under.times).map(|(x, y)| x / y).collect()
    }

    /// The median of the ratios.
    pub fn over(&self, under: &Column) -> f64 {
        median(&self.ratios(under))
    }
}

/// Some tasks, measured.
pub struct Measured<A> {
    /// What all contestants answered, task by task.
    pub answers: Vec<A>,
    pub columns: Vec<Column>,
}

impl<A: PartialEq + Debug> Measured<A> {
    pub fn new<T: Debug>(contestants: &mut [Contestant<T, A>], tasks: &[T], effort: Effort) -> Measured<A> {
        let columns = contestants.iter().map(|contestant| Column { role: contestant.role, times: vec![], tests: vec![] });
        let mut measured = Measured { answers: vec![], columns: columns.collect() };
        for task in tasks {
            let mut runs = agree(contestants, task);
            let times = best_times(contestants, task, effort);
            for ((column, run), time) in measured.columns.iter_mut().zip(&runs).zip(times) {
                column.times.push(time);
                column.tests.push(run.tests as f64);
            }
            measured.answers.push(runs.swap_remove(0).answer);
        }
        measured
    }

    /// The contestant of the given roles whose median time is the least.
    pub fn fastest(&self, roles: &[Role]) -> &Column {
        let columns = self.columns.iter().filter(|column| roles.contains(&column.role));
        columns.min_by(|a, b| a.median().total_cmp(&b.median())).expect("a contestant of these roles")
    }

    /// The contestant of a role.
    pub fn column(&self, role: Role) -> &Column {
        self.fastest(&[role])
    }
}

pub fn median(list: &[f64]) -> f64 {
    let mut sorted = list.to_vec();
    sorted.sort_by(f64::total_cmp);
    let middle = sorted.len() / 2;
    if sorted.len() % 2 == 1 {
        sorted[middle]
    } else {
        (sorted[middle - 1] + sorted[middle]) / 2.0
    }
}
