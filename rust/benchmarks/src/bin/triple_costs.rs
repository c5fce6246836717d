//! What triples cost, as Markdown tables: the time of an open with so many triples over that of the same sheet without them, for each
//! proved engine and for plain SAC-1 over AC-4. Triples that allow everything show what they cost alone; under those that narrow the sheet
//! more settings are tested, and tests close more. With `--long`, three times as many sheets, and twice the time for each.

use belaykeel::Engine;
use benchmarks::contestants::libraries;
use benchmarks::effort::{Effort, Extent};
use benchmarks::measure::{agree, median, timed, Column, Contestant, Measured, Run};
use benchmarks::plain::calls::Plain;
use benchmarks::plain::{methods, Method};
use benchmarks::report::{apart, heading, print_apart, row, share};
use benchmarks::role::Role;
use benchmarks::sheets::{Class, Draft, Source, MILLS};
use benchmarks::task::{Job, Spaces, Task};
use benchmarks::WHOLE_REACH;
use harness::library::Library;
use harness::linked::Linked;
use solver::Sheet;
use std::hint::black_box;
use std::time::Instant;

/// How many triples the sheets have, beside none.
const COUNTS: [usize; 6] = [1, 2, 4, 8, 16, 32];

/// The reaches at which the sheets are measured.
const AT: [u32; 2] = [2, WHOLE_REACH];

/// Pages of 12 and of 24 fields. One of 6 has no three passes.
const PAGES: [Source; 2] = [Source::Mill(MILLS[1]), Source::Mill(MILLS[2])];

/// Sheets of 24 fields of 24 settings, with few rules and with many.
const RANDOM: [Source; 2] = [Source::Random(Class::largest(0.2, 0.4)), Source::Random(Class::largest(0.5, 0.2))];

/// What is timed, in the order of the columns.
const TIMED: [Role; 4] = [Role::Proved(Engine::Sac1), Role::Proved(Engine::Sac2), Role::Proved(Engine::Queue), Role::Ac4];

/// None, and the counts that sheets of a source can have.
fn counts(source: Source, effort: Effort) -> Vec<usize> {
    let mut counts = [&[0], effort.some_of(&COUNTS)].concat();
    counts.retain(|&count| count <= source.most_triples());
    counts
}

/// The plain method of the role AC-4.
fn ac4(fields: usize) -> Method {
    methods(fields).into_iter().find(|(role, _)| *role == Role::Ac4).expect("a plain method").1
}

/// A sheet with each count of triples: the opens, the shares of the settings that are offered, and the tests of engine 1.
#[derive(Debug)]
struct Input {
    opens: Vec<Task>,
    offered: Vec<f64>,
    tests: Vec<f64>,
}

impl Input {
    /// Nothing where the sheet with the most triples is wiped out at reach 24.
    fn new(source: Source, draft: Draft, counts: &[usize], reach: u32, seed: u64) -> Option<Input> {
        let mut method = ac4(source.fields());
        method(&Job::new(&source.drafted(seed, draft, counts[counts.len() - 1]))).offers?;
        let (mut input, mut all) = (Input { opens: vec![], offered: vec![], tests: vec![] }, libraries(source.fields()));
        for &count in counts {
            let sheet = Sheet { reach, ..source.drafted(seed, draft, count) };
            let found = method(&Job::new(&sheet));
            input.opens.push(Task::open(&sheet));
            input.offered.push(share(&found.offers?, sheet.settings.iter().map(Vec::len).sum()));
            input.tests.push(found.tests as f64);
            agree(&mut all, &input.opens[input.opens.len() - 1]);
        }
        Some(input)
    }
}

/// One that opens the sheet with the count of triples at this place.
fn contestant(role: Role, place: usize, engine: Engine, mut library: impl Library + 'static) -> Contestant<Input, ()> {
    let mut spaces = Spaces::default();
    Contestant::new(role, move |input: &Input| {
        let task = &input.opens[place];
        let mut session = task.session.clone();
        let mut lent = task.lent(engine, black_box(&mut session), &mut spaces);
        let (answer, time) = timed(|| library.call(&task.call, &mut lent));
        assert_eq!(answer.number, task.number, "{role}: {task:?}");
        Run { answer: (), tests: 0, time }
    })
}

/// Every role of `TIMED` with each of so many counts, those of a role together.
fn contestants(source: Source, counts: usize) -> Vec<Contestant<Input, ()>> {
    let mut all = vec![];
    for role in TIMED {
        for place in 0..counts {
            all.push(match role {
                Role::Proved(engine) => contestant(role, place, engine, Linked),
                _ => contestant(role, place, Engine::Sac1, Plain::new(ac4(source.fields()))),
            });
        }
    }
    all
}

/// The sheets of a source at a reach, measured with each count of triples.
struct Line {
    source: Source,
    draft: Draft,
    reach: u32,
    counts: Vec<usize>,
    inputs: Vec<Input>,
    columns: Vec<Column>,
}

impl Line {
    fn new(source: Source, draft: Draft, reach: u32, effort: Effort) -> Line {
        let counts = counts(source, effort);
        let found = (1..200).filter_map(|seed| Input::new(source, draft, &counts, reach, seed));
        let inputs: Vec<Input> = found.take(effort.sheets).collect();
        assert_eq!(inputs.len(), effort.sheets, "sheets of {source:?}");
        let columns = Measured::new(&mut contestants(source, counts.len()), &inputs, effort).columns;
        Line { source, draft, reach, counts, inputs, columns }
    }

    /// For each role, the times with the count of triples at this place over those without.
    fn ratios(&self, place: usize) -> Vec<f64> {
        self.columns.chunks(self.counts.len()).map(|columns| columns[place].over(&columns[0])).collect()
    }

    fn print(&self) {
        let middle = |of: &dyn Fn(&Input) -> f64| median(&self.inputs.iter().map(of).collect::<Vec<f64>>());
        for (place, count) in self.counts.iter().enumerate() {
            let mut cells = vec![self.source.label(), self.draft.label().into(), self.reach.to_string(), count.to_string()];
            cells.push(format!("{:.0} %", 100.0 * middle(&|input| input.offered[place])));
            cells.push(format!("{:.0}", middle(&|input| input.tests[place])));
            cells.push(format!("{:.1}", self.columns[place].median()));
            cells.extend(self.ratios(place).iter().map(|ratio| format!("{ratio:.2}")));
            row(&cells);
        }
    }
}

/// Measures the sheets of each source, with both sorts of triples, at these reaches.
fn measure(sources: &[Source], reaches: &[u32], effort: Effort) -> Vec<Line> {
    let mut lines = vec![];
    for &source in effort.some_of(sources) {
        for draft in [Draft::Loose, Draft::Tight] {
            lines.extend(reaches.iter().map(|&reach| Line::new(source, draft, reach, effort)));
        }
    }
    lines
}

/// Measures sheets and prints a row for each source, sort of triples, reach and count.
fn print_lines(title: &str, sources: &[Source], effort: Effort) -> Vec<Line> {
    println!("\n## {title}");
    let first = ["sheets", "triples", "reach", "count", "offered", "tests of engine 1", "engine 1, µs"];
    heading(&[&first[..], &["engine 1", "engine 2", "engine 3", "plain SAC-1 over AC-4"]].concat());
    let lines = measure(sources, &AT, effort);
    lines.iter().for_each(Line::print);
    lines
}

/// The lines at reach 24 measured twice: how far apart the ratios are.
fn print_noise(first: &[&Line], second: &[Line]) {
    let mut list = vec![];
    for (first, second) in first.iter().zip(second) {
        for (place, count) in first.counts.iter().enumerate().skip(1) {
            let ratios = first.ratios(place).into_iter().zip(second.ratios(place)).zip(TIMED);
            for ((a, b), role) in ratios {
                list.push((apart([a, b]), format!("{role}, {count} triples, {}, {}", first.draft.label(), first.source.label())));
            }
        }
    }
    print_apart("ratios", list);
}

fn main() {
    let begun = Instant::now();
    let extent = Extent::asked();
    let (small, large) = (extent.effort(9, 60), extent.effort(5, 200));
    println!("Times are those of whole opens with every field selected, each over that of the same sheet without triples: medians over");
    println!("the sheets of a row, none of which is wiped out. Of each sheet the counts are timed one after the other, in several rounds.");
    let mut lines = print_lines("Set-up pages", &PAGES, small);
    lines.extend(print_lines("Random sheets, 24 fields of 24 settings", &RANDOM, large));
    println!("\n## Noise\n\nThe rows at reach 24, measured a second time at the end of the run:\n");
    let mut again = measure(&PAGES, &[WHOLE_REACH], small);
    again.extend(measure(&RANDOM, &[WHOLE_REACH], large));
    let at_24: Vec<&Line> = lines.iter().filter(|line| line.reach == WHOLE_REACH).collect();
    print_noise(&at_24, &again);
    println!("\nThe run took {:.0} s.", begun.elapsed().as_secs_f64());
}
