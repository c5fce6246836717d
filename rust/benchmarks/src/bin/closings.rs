//! AC-4 against the closing before it, as Markdown tables. A ratio is the time of a proved engine, which closes by AC-4, over that of the
//! same method in plain Rust with the closing that the engines had before. Every time is from the list of numbers to the offers, tables
//! included. With `--long`, three times as many sheets, and twice the time for each.

use belaykeel::Engine;
use benchmarks::contestants::engines;
use benchmarks::effort::{Effort, Extent};
use benchmarks::measure::{median, Contestant, Measured};
use benchmarks::report::{apart, heading, print_apart, row};
use benchmarks::role::{Role, BEFORE};
use benchmarks::sheets::{random_series, Class, Series, Source, HARDEST, LARGE, PAGES};
use benchmarks::task::Job;
use benchmarks::{Offers, WHOLE_REACH};
use solver::Sheet;
use std::time::Instant;

const PROVED: [Role; 3] = [Role::Proved(Engine::Sac1), Role::Proved(Engine::Sac2), Role::Proved(Engine::Queue)];

/// The reaches at which sheets are measured.
const REACHES: [u32; 2] = [WHOLE_REACH, 2];

/// Those that are compared: the proved engines, the methods over the closing before, and plain SAC-1 over AC-4.
fn compared(fields: usize) -> Vec<Contestant<Job, Offers>> {
    let mut all = engines(fields);
    all.retain(|contestant| [&PROVED[..], &BEFORE, &[Role::Ac4]].concat().contains(&contestant.role));
    all
}

/// The sheets of a series at a reach, measured.
struct Line {
    source: Source,
    reach: u32,
    measured: Measured<Offers>,
}

impl Line {
    fn new(series: &Series, reach: u32, effort: Effort) -> Line {
        let jobs: Vec<Job> = series.sheets(effort.sheets, reach).iter().map(Job::new).collect();
        let measured = Measured::new(&mut compared(series.source.fields()), &jobs, effort);
        Line { source: series.source, reach, measured }
    }

    /// Sheet by sheet, one time over another.
    fn ratios(&self, over: Role, under: Role) -> Vec<f64> {
        self.measured.column(over).ratios(self.measured.column(under))
    }

    /// The median time of a role, in microseconds.
    fn time(&self, role: Role) -> String {
        format!("{:.1}", self.measured.column(role).median())
    }
}

/// Measures each series at those of its reaches that are wanted.
fn measure(all: &[Series], effort: Effort) -> Vec<Line> {
    let mut lines = vec![];
    for reach in REACHES {
        let at_reach = effort.some_of(all).iter().filter(|series| series.reaches.contains(&reach));
        lines.extend(at_reach.map(|series| Line::new(series, reach, effort)));
    }
    lines
}

/// The random and the hardest sheets of the largest size; those that are in both are taken once.
fn largest() -> Vec<Series> {
    let mut all = random_series(24, 24, LARGE);
    let same = |a: &Series, b: &Series| a.first_seed == b.first_seed && a.source.label() == b.source.label();
    let others = HARDEST.iter().filter(|hard| !all.iter().any(|series| same(series, hard)));
    all.extend(others.copied().collect::<Vec<Series>>());
    all
}

/// The median over all sheets of these lines.
fn over(lines: &[&Line], over: Role, under: Role) -> f64 {
    median(&lines.iter().flat_map(|line| line.ratios(over, under)).collect::<Vec<f64>>())
}

/// The engines to their methods over the closing before.
fn engine_ratios(lines: &[&Line]) -> [f64; 3] {
    std::array::from_fn(|place| over(lines, PROVED[place], BEFORE[place]))
}

/// What stands in a row beside its label, but the times: the engines, plain AC-4, and engine 1 to plain AC-4.
fn cells(lines: &[&Line]) -> Vec<String> {
    let answers = || lines.iter().flat_map(|line| &line.measured.answers);
    let mut cells = vec![format!("{} of {}", answers().filter(|offers| offers.is_none()).count(), answers().count())];
    let plain = [over(lines, Role::Ac4, BEFORE[0]), over(lines, PROVED[0], Role::Ac4)];
    cells.extend([&engine_ratios(lines)[..], &plain].concat().iter().map(|ratio| format!("{ratio:.2}")));
    cells
}

fn at_reach(lines: &[Line], reach: u32) -> Vec<&Line> {
    lines.iter().filter(|line| line.reach == reach).collect()
}

/// A row for each series and reach, and one for all sheets at a reach.
fn print_lines(lines: &[Line]) {
    let ratios = ["engine 1", "engine 2", "engine 3", "plain AC-4", "engine 1 to plain AC-4"];
    let times = ["engine 1, µs", "plain SAC-1 before, µs", "plain SAC-1 over AC-4, µs"];
    heading(&[&["sheets", "reach", "wiped out"][..], &ratios, &times].concat());
    for reach in REACHES {
        for line in at_reach(lines, reach) {
            let times = [PROVED[0], BEFORE[0], Role::Ac4].map(|role| line.time(role));
            row(&[&[line.source.label(), reach.to_string()][..], &cells(&[line]), &times].concat());
        }
        let none = ["–"; 3].map(String::from);
        row(&[&["all".into(), reach.to_string()][..], &cells(&at_reach(lines, reach)), &none].concat());
    }
}

/// The sheets of a sort, measured twice.
struct Sort {
    name: &'static str,
    first: Vec<Line>,
    second: Vec<Line>,
}

impl Sort {
    fn new(name: &'static str, all: &[Series], effort: Effort) -> Sort {
        println!("\n## {name}");
        let first = measure(all, effort);
        print_lines(&first);
        Sort { name, first, second: measure(all, effort) }
    }
}

/// The medians over all sheets of a sort at a reach, twice, and how far apart the ratios of each row are.
fn print_noise(sorts: &[Sort]) {
    heading(&["sheets", "reach", "engine 1", "again", "engine 2", "again", "engine 3", "again"]);
    let mut list = vec![];
    for Sort { name, first, second } in sorts {
        for reach in REACHES {
            let [a, b] = [first, second].map(|lines| engine_ratios(&at_reach(lines, reach)));
            let cells = a.iter().zip(&b).flat_map(|(a, b)| [a, b].map(|ratio| format!("{ratio:.2}")));
            row(&[name.to_string(), reach.to_string()].into_iter().chain(cells).collect::<Vec<String>>());
        }
        for (first, second) in first.iter().zip(second) {
            let [a, b] = [first, second].map(|line| engine_ratios(&[line]));
            for (place, role) in PROVED.iter().enumerate() {
                list.push((apart([a[place], b[place]]), format!("{role}, {}, reach {}", first.source.label(), first.reach)));
            }
        }
    }
    println!();
    print_apart("ratios of rows", list);
}

/// One field of the start set is empty, so that an engine stops as soon as its tables are built; a proved one has set the arrays of closing
/// to 0 too.
fn tables_alone(sheet: &Sheet) -> Job {
    let mut job = Job::new(sheet);
    job.start[0] = 0;
    job
}

/// The first field starts with one setting, which allows every setting of the others, and is the only one selected. So the start removes
/// nothing, and it is followed by one test, which cuts nothing off.
fn start_alone(sheet: &Sheet) -> Job {
    let mut sheet = sheet.clone();
    sheet.rules.iter_mut().filter(|rule| rule.i == 0).for_each(|rule| rule.numbers[0] = (1 << sheet.settings[rule.j].len()) - 1);
    let mut job = Job { selected: 1, ..Job::new(&sheet) };
    job.start[0] = 1;
    job
}

/// The tables and the start on sheets of the largest size.
fn print_start(effort: Effort) {
    let roles = [PROVED[0], BEFORE[0], Role::Ac4];
    heading(&["", "engine 1, µs", "plain SAC-1 before, µs", "plain SAC-1 over AC-4, µs", "engine 1 to the first", "to the second"]);
    let class = Class::largest(1.0, 0.5);
    let sheets: Vec<Sheet> = (1..).take(effort.sheets).map(|seed| class.sheet(seed)).collect();
    let [tables, both] = [tables_alone, start_alone].map(|job| {
        let jobs: Vec<Job> = sheets.iter().map(job).collect();
        let measured = Measured::new(&mut compared(class.fields), &jobs, effort);
        let untouched = jobs.iter().zip(&measured.answers).all(|(job, answer)| answer.is_none_or(|offers| offers == job.start));
        assert!(untouched, "the start removes nothing");
        roles.map(|role| measured.column(role).median())
    });
    let start: [f64; 3] = std::array::from_fn(|place| both[place] - tables[place]);
    for (name, times) in [("tables", tables), ("tables, start and one test that cuts nothing off", both), ("the difference", start)] {
        let ratios = [times[0] / times[1], times[0] / times[2]].map(|ratio| format!("{ratio:.2}"));
        row(&[&[name.to_string()][..], &times.map(|time| format!("{time:.1}")), &ratios].concat());
    }
}

fn main() {
    let begun = Instant::now();
    let extent = Extent::asked();
    let (small, large, start) = (extent.effort(15, 10), extent.effort(7, 60), extent.effort(5, 40));
    println!("Ratios are to the same method in plain Rust with the closing before AC-4, medians over the sheets.");
    println!("Plain AC-4 is SAC-1, to plain SAC-1 with the closing before.");
    let sorts = [Sort::new("Set-up pages", &PAGES, small), Sort::new("24 fields of 24 settings", &largest(), large)];
    println!("\n## The start alone, 24 fields of 24 settings, density 1, reach 24");
    print_start(start);
    println!("\n## Noise\n\nEvery row was measured twice.");
    print_noise(&sorts);
    println!("\nThe start alone, again:");
    print_start(start);
    println!("\nThe run took {:.0} s.", begun.elapsed().as_secs_f64());
}
