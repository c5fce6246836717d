//! What engines 2 and 3 save against engine 1, as Markdown tables: tests of settings, and time from a sheet's list of numbers and all of
//! its settings to the offers. The plain methods count the tests; they make those of the proved engines. With `--long`, three times as many
//! sheets, and twice the time for each.

use belaykeel::Engine;
use benchmarks::contestants::engines;
use benchmarks::effort::{Effort, Extent};
use benchmarks::measure;
use benchmarks::report::{apart, heading, print_apart, row};
use benchmarks::role::Role;
use benchmarks::sheets::{at_reach_2, random_series, Series, Source, HARDEST, LARGE, PAGES, REACHES, SMALL};
use benchmarks::task::Job;
use benchmarks::Offers;
use std::time::Instant;

/// The engines, and the plain methods that make their tests.
const PROVED: [Role; 3] = [Role::Proved(Engine::Sac1), Role::Proved(Engine::Sac2), Role::Proved(Engine::Queue)];
const COUNTED: [Role; 3] = [Role::AtOnce, Role::Sac2, Role::Queue];

/// The headings of what `Tests::all_cells` gives.
const TESTS: [&str; 5] = ["tests of engine 1", "of engine 2", "of engine 3", "engine 2 saves", "engine 3 saves"];

/// The sheets of a series at a reach, measured.
struct Line {
    source: Source,
    reach: u32,
    measured: measure::Measured<Offers>,
}

impl Line {
    fn new(series: &Series, reach: u32, effort: Effort) -> Line {
        let jobs: Vec<Job> = series.sheets(effort.sheets, reach).iter().map(Job::new).collect();
        let mut compared = engines(series.source.fields());
        compared.retain(|contestant| PROVED.contains(&contestant.role) || COUNTED.contains(&contestant.role));
        Line { source: series.source, reach, measured: measure::Measured::new(&mut compared, &jobs, effort) }
    }
}

/// Measures each series at its reaches.
fn measure(all: &[Series], effort: Effort) -> Vec<Line> {
    let listed = effort.some_of(all).iter();
    listed.flat_map(|series| series.reaches.iter().map(move |&reach| Line::new(series, reach, effort))).collect()
}

/// The tests of some sheets, by the three engines.
#[derive(Default)]
struct Tests {
    sheets: usize,
    made: [f64; 3],
}

impl Tests {
    /// Those of the sheets whose answer is as wanted.
    fn of(lines: &[&Line], wanted: fn(&Offers) -> bool) -> Tests {
        let mut tests = Tests::default();
        for Line { measured, .. } in lines {
            let columns = COUNTED.map(|role| measured.column(role));
            for (place, _) in measured.answers.iter().enumerate().filter(|(_, answer)| wanted(answer)) {
                tests.sheets += 1;
                tests.made.iter_mut().zip(columns).for_each(|(made, column)| *made += column.tests[place]);
            }
        }
        tests
    }

    /// The share of the tests of engine 1 that engines 2 and 3 save; a dash where it makes none.
    fn saved(&self) -> [String; 2] {
        let [first, others @ ..] = self.made;
        others.map(|made| if first == 0.0 { "–".into() } else { format!("{:.1} %", 100.0 * (1.0 - made / first)) })
    }

    /// The tests of engine 1, and what is saved.
    fn cells(&self) -> Vec<String> {
        [&[self.made[0].to_string()][..], &self.saved()].concat()
    }

    /// The tests of each engine, and what is saved.
    fn all_cells(&self) -> Vec<String> {
        [&self.made.map(|made| made.to_string())[..], &self.saved()].concat()
    }
}

/// The times of the second and the third of these over that of the first, each of all sheets.
fn times(lines: &[&Line], roles: [Role; 3]) -> [f64; 2] {
    let [first, others @ ..] = roles.map(|role| lines.iter().flat_map(|line| &line.measured.column(role).times).sum::<f64>());
    others.map(|time| time / first)
}

fn time_cells(lines: &[&Line], roles: [Role; 3]) -> [String; 2] {
    times(lines, roles).map(|time| format!("{time:.2}"))
}

fn wiped_out(lines: &[&Line]) -> String {
    format!("{} of {}", Tests::of(lines, Offers::is_none).sheets, Tests::of(lines, |_| true).sheets)
}

/// A row about some sheets, all at one reach.
fn print_row(label: String, reach: u32, lines: &[&Line]) {
    let mut cells = vec![label, reach.to_string(), wiped_out(lines)];
    cells.extend(Tests::of(lines, |_| true).all_cells());
    cells.extend(time_cells(lines, PROVED));
    cells.extend(time_cells(lines, COUNTED));
    row(&cells);
}

/// Measures sheets and prints a row for each series and reach, and one for all sheets at a reach.
fn print_savings(title: &str, all: &[Series], effort: Effort) -> Vec<Line> {
    println!("\n## {title}");
    let times = ["engine 2 time", "engine 3 time", "plain SAC-2 time", "plain queue time"];
    heading(&[&["sheets", "reach", "wiped out"][..], &TESTS, &times].concat());
    let lines = measure(all, effort);
    for line in &lines {
        print_row(line.source.label(), line.reach, &[line]);
    }
    for &reach in REACHES {
        let at_reach: Vec<&Line> = lines.iter().filter(|line| line.reach == reach).collect();
        print_row("all".into(), reach, &at_reach);
    }
    lines
}

/// A row about some sheets at reach 2: all of them, those that are not wiped out, and those that are.
fn print_split_row(label: String, lines: &[&Line]) {
    let mut cells = vec![label, wiped_out(lines)];
    cells.extend(Tests::of(lines, |_| true).all_cells());
    for wanted in [Offers::is_some, Offers::is_none] {
        cells.extend(Tests::of(lines, wanted).cells());
    }
    cells.extend(time_cells(lines, PROVED));
    row(&cells);
}

/// Measures sheets around the tightness where they begin to be wiped out at reach 2.
fn print_at_reach_2(effort: Effort) {
    println!("\n## Around the tightness where sheets begin to be wiped out at reach 2, 24 fields of 24 settings");
    let [.., second, third] = TESTS;
    let split = [["not wiped out: tests of engine 1", second, third], ["wiped out: tests of engine 1", second, third]];
    heading(&[&["sheets", "wiped out"][..], &TESTS, &split.concat(), &["engine 2 time", "engine 3 time"]].concat());
    let mut most = vec![];
    for all in at_reach_2() {
        let lines = measure(&all, effort);
        for line in &lines {
            print_split_row(line.source.label(), &[line]);
        }
        print_split_row(format!("the {} above", lines.len()), &lines.iter().collect::<Vec<&Line>>());
        let counted = lines.iter().map(|line| (line.source.label(), Tests::of(&[line], |_| true)));
        most.extend(counted.max_by(|a, b| a.1.made[0].total_cmp(&b.1.made[0])));
    }
    println!("\nWhere engine 1 makes the most tests:\n");
    for (label, tests) in most {
        let [second, third] = tests.saved();
        println!("- {label}: engine 2 saves {second}, engine 3 {third}.");
    }
}

/// The same sheets measured twice: how far apart the times of engines 2 and 3 over that of engine 1 are.
fn print_noise(first: &[Line], second: &[Line]) {
    let mut list = vec![];
    for (first, second) in first.iter().zip(second) {
        let [a, b] = [first, second].map(|line| times(&[line], PROVED));
        for (place, role) in PROVED[1..].iter().enumerate() {
            list.push((apart([a[place], b[place]]), format!("{role}, {}, reach {}", first.source.label(), first.reach)));
        }
    }
    print_apart("ratios", list);
}

fn main() {
    let begun = Instant::now();
    let extent = Extent::asked();
    let (small, large, many) = (extent.effort(15, 10), extent.effort(7, 60), extent.effort(30, 5));
    println!("Tests and times are those of all sheets of a row. A time is a part of that of engine 1 or of plain SAC-1.");
    let mut lines = print_savings("Set-up pages", &PAGES, small);
    lines.extend(print_savings("Hardest sheets, 24 fields of 24 settings", &HARDEST, large));
    print_savings("Random sheets, 24 fields of 24 settings", &random_series(24, 24, LARGE), large);
    print_savings("Random sheets, 8 fields of 6 settings", &random_series(8, 6, SMALL), small);
    print_at_reach_2(many);
    println!("\n## Noise\n\nThe pages and the hardest sheets, measured a second time at the end of the run:\n");
    let mut again = measure(&PAGES, small);
    again.extend(measure(&HARDEST, large));
    print_noise(&lines, &again);
    println!("\nThe run took {:.0} s.", begun.elapsed().as_secs_f64());
}
