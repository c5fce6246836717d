//! What selecting fewer fields saves, as Markdown tables: the time of the proved engines, from a sheet's list of numbers and all of its
//! settings to the offers, and of whole opens, each as a part of its time on the same sheet with every field selected. The selected fields
//! are those with the most rules, of equals the first. The plain methods count the tests; they make those of the proved engines. With
//! `--long`, three times as many sheets, and twice the time for each.

use belaykeel::Engine;
use benchmarks::contestants::engines;
use benchmarks::effort::{Effort, Extent};
use benchmarks::measure::{agree, median, timed, Column, Contestant, Measured, Run};
use benchmarks::proved::Proved;
use benchmarks::report::{apart, heading, print_apart, row, share};
use benchmarks::role::Role;
use benchmarks::sheets::{busiest, Series, Source, HARDEST, PAGES, REACHES};
use benchmarks::task::{Job, Spaces, Task};
use benchmarks::WHOLE_REACH;
use harness::library::Library;
use harness::linked::Linked;
use public_calls::Call;
use solver::Sheet;
use std::hint::black_box;
use std::time::Instant;

/// How many fields are selected, of n: one, a quarter, half and all.
const PARTS: [&str; 4] = ["one field", "a quarter", "half", "all"];

fn counts(n: usize) -> [usize; 4] {
    [1, n.div_ceil(4), n.div_ceil(2), n]
}

/// The plain methods that make the tests of engines 1, 2 and 3.
const COUNTED: [Role; 3] = [Role::AtOnce, Role::Sac2, Role::Queue];

/// A sheet with each part of its fields selected: the jobs of the engines, and the opens.
#[derive(Debug)]
struct Input {
    settings: usize,
    jobs: [Job; 4],
    opens: [Task; 4],
}

impl Input {
    fn new(sheet: &Sheet) -> Input {
        let selected = counts(sheet.fields()).map(|count| busiest(sheet, count));
        Input {
            settings: sheet.settings.iter().map(Vec::len).sum(),
            jobs: selected.map(|selected| Job { selected, ..Job::new(sheet) }),
            opens: selected.map(|selected| Task { call: Call::Open(selected), ..Task::open(sheet) }),
        }
    }
}

/// Every engine with every part selected, alone and in an open: in this order, the parts of an engine together.
fn contestants() -> Vec<Contestant<Input, ()>> {
    let each = || Engine::ALL.into_iter().flat_map(|engine| (0..PARTS.len()).map(move |part| (engine, part)));
    let mut all = vec![];
    for (engine, part) in each() {
        let mut proved = Proved::default();
        all.push(Contestant::new(Role::Proved(engine), move |input: &Input| {
            let (_, time) = proved.offers(engine, &input.jobs[part]);
            Run { answer: (), tests: 0, time }
        }));
    }
    for (engine, part) in each() {
        let mut spaces = Spaces::default();
        all.push(Contestant::new(Role::Proved(engine), move |input: &Input| {
            let task = &input.opens[part];
            let mut session = task.session.clone();
            let mut lent = task.lent(engine, black_box(&mut session), &mut spaces);
            let (answer, time) = timed(|| Linked.call(&task.call, &mut lent));
            assert!([0, 14].contains(&answer.number), "{answer:?}: {task:?}");
            Run { answer: (), tests: 0, time }
        }));
    }
    all
}

/// What is found with a part of the fields selected.
#[derive(Default)]
struct Found {
    wiped: usize,
    /// For each sheet the share of its settings that are offered.
    offered: Vec<f64>,
    /// The tests of engines 1, 2 and 3 on all sheets.
    tests: [u64; 3],
}

impl Found {
    /// What all engines, proved and plain, answer.
    fn new(fields: usize, inputs: &[Input], part: usize) -> Found {
        let mut found = Found::default();
        let mut all = engines(fields);
        for input in inputs {
            let runs = agree(&mut all, &input.jobs[part]);
            let offers = runs[0].answer;
            found.wiped += usize::from(offers.is_none());
            found.offered.push(share(&offers.unwrap_or_default(), input.settings));
            for (tests, role) in found.tests.iter_mut().zip(COUNTED) {
                let place = all.iter().position(|contestant| contestant.role == role).expect("a plain method");
                *tests += runs[place].tests;
            }
        }
        found
    }
}

/// The sheets of a series at a reach, measured.
struct Line {
    source: Source,
    reach: u32,
    found: Vec<Found>,
    columns: Vec<Column>,
}

impl Line {
    fn new(series: &Series, reach: u32, effort: Effort) -> Line {
        let inputs: Vec<Input> = series.sheets(effort.sheets, reach).iter().map(Input::new).collect();
        let found = (0..PARTS.len()).map(|part| Found::new(series.source.fields(), &inputs, part)).collect();
        let columns = Measured::new(&mut contestants(), &inputs, effort).columns;
        Line { source: series.source, reach, found, columns }
    }

    /// The times of the engines alone, then those of opens, by engine: each over that with every field selected.
    fn ratios(&self, part: usize) -> Vec<f64> {
        self.columns.chunks(PARTS.len()).map(|parts| parts[part].over(&parts[PARTS.len() - 1])).collect()
    }

    fn print(&self) {
        for (part, found) in self.found.iter().enumerate() {
            let fields = self.source.fields();
            let mut cells = vec![self.source.label(), self.reach.to_string(), format!("{} of {fields}", counts(fields)[part])];
            cells.push(format!("{} of {}", found.wiped, found.offered.len()));
            cells.push(format!("{:.0} %", 100.0 * median(&found.offered)));
            cells.extend(found.tests.map(|tests| tests.to_string()));
            cells.push(format!("{:.1}", self.columns[part].median()));
            cells.extend(self.ratios(part).iter().map(|ratio| format!("{ratio:.2}")));
            row(&cells);
        }
    }
}

/// Measures each series at those of its reaches that are wanted.
fn measure(all: &[Series], wanted: &[u32], effort: Effort) -> Vec<Line> {
    let reaches = |series: &Series| series.reaches.iter().filter(|reach| wanted.contains(reach)).copied().collect::<Vec<u32>>();
    effort.some_of(all).iter().flat_map(|series| reaches(series).into_iter().map(move |reach| Line::new(series, reach, effort))).collect()
}

/// Measures sheets and prints a row for each series, reach and part of the fields.
fn print_lines(title: &str, all: &[Series], effort: Effort) -> Vec<Line> {
    println!("\n## {title}");
    let first = ["sheets", "reach", "selected fields", "wiped out", "offered"];
    let tests = ["tests of engine 1", "of engine 2", "of engine 3"];
    let times = ["engine 1, µs", "engine 1", "engine 2", "engine 3", "open, engine 1", "open, engine 2", "open, engine 3"];
    heading(&[&first[..], &tests, &times].concat());
    let lines = measure(all, REACHES, effort);
    lines.iter().for_each(Line::print);
    lines
}

/// The lines at reach 24 measured twice: how far apart the ratios are.
fn print_noise(first: &[&Line], second: &[Line]) {
    let (mut alone, mut opens) = (vec![], vec![]);
    for (first, second) in first.iter().zip(second) {
        for (part, label) in PARTS[..PARTS.len() - 1].iter().enumerate() {
            let ratios = first.ratios(part).into_iter().zip(second.ratios(part)).enumerate();
            for (place, (a, b)) in ratios {
                let engine = place % Engine::ALL.len() + 1;
                let name = format!("engine {engine}, {label}, {}", first.source.label());
                let list = if place < Engine::ALL.len() { &mut alone } else { &mut opens };
                list.push((apart([a, b]), name));
            }
        }
    }
    print_apart("ratios of the engines alone", alone);
    print_apart("ratios of opens", opens);
}

fn main() {
    let begun = Instant::now();
    let extent = Extent::asked();
    let (small, large) = (extent.effort(15, 10), extent.effort(7, 60));
    println!("Tests are those of all sheets of a row. A time is a part of that with every field selected, the median over the sheets.");
    let mut lines = print_lines("Set-up pages", &PAGES, small);
    lines.extend(print_lines("Hardest sheets, 24 fields of 24 settings", &HARDEST, large));
    println!("\n## Noise\n\nThe rows at reach 24, measured a second time at the end of the run:\n");
    let mut again = measure(&PAGES, &[WHOLE_REACH], small);
    again.extend(measure(&HARDEST, &[WHOLE_REACH], large));
    let at_24: Vec<&Line> = lines.iter().filter(|line| line.reach == WHOLE_REACH).collect();
    print_noise(&at_24, &again);
    println!("\nThe run took {:.0} s.", begun.elapsed().as_secs_f64());
}
