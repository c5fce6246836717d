//! The proved engines beside plain Rust on random sheets, as Markdown tables. Every time is from the list of numbers to the offers, tables
//! included. With `--long`, three times as many sheets, and twice the time for each.

use belaykeel::Engine;
use benchmarks::contestants::engines;
use benchmarks::effort::{Effort, Extent};
use benchmarks::measure::{self, median, Column};
use benchmarks::report::{apart, heading, row, share};
use benchmarks::role::{Role, ONE_BY_ONE, PLAIN_SAC1};
use benchmarks::sheets::{growing, random_classes, Class, Densities, LARGE, REACHES, SMALL};
use benchmarks::task::Job;
use benchmarks::{Offers, WHOLE_REACH};
use std::time::Instant;

const ENGINE_1: Role = Role::Proved(Engine::Sac1);

/// The sheets of a class, measured.
struct Measured {
    class: Class,
    first_seed: u64,
    wiped: usize,
    /// For each sheet the share of its settings that are offered.
    offered: Vec<f64>,
    all: measure::Measured<Offers>,
}

impl Measured {
    /// Measures the sheets of a class, each changed in the same way before.
    fn new(class: Class, first_seed: u64, effort: Effort, change: fn(&mut Job)) -> Measured {
        let mut jobs: Vec<Job> = (first_seed..).take(effort.sheets).map(|seed| Job::new(&class.sheet(seed))).collect();
        jobs.iter_mut().for_each(change);
        let mut compared = engines(class.fields);
        compared.retain(|contestant| matches!(contestant.role, Role::Proved(_)) || PLAIN_SAC1.contains(&contestant.role));
        let all = measure::Measured::new(&mut compared, &jobs, effort);
        let wiped = all.answers.iter().filter(|offers| offers.is_none()).count();
        let offered = |offers: &Offers| share(&offers.unwrap_or_default(), class.fields * class.settings);
        Measured { class, first_seed, wiped, offered: all.answers.iter().map(offered).collect(), all }
    }

    fn fastest(&self, roles: &[Role]) -> &Column {
        self.all.fastest(roles)
    }

    fn column(&self, role: Role) -> &Column {
        self.all.column(role)
    }
}

fn measure(class: Class, first_seed: u64, effort: Effort) -> Measured {
    Measured::new(class, first_seed, effort, |_| ())
}

/// Measures sheets of all densities and tightnesses; those of different reaches are otherwise the same.
fn measure_all(fields: usize, settings: usize, densities: &Densities, reaches: &[u32], effort: Effort) -> Vec<Measured> {
    let mut all = vec![];
    for &(class, first_seed) in effort.some_of(&random_classes(fields, settings, densities)) {
        for &reach in reaches {
            all.push(measure(Class { reach, ..class }, first_seed, effort));
        }
    }
    all
}

/// The median over the sheets of one time over the other.
fn over(column: &Column, under: &Column) -> String {
    format!("{:.2}", column.over(under))
}

fn label(class: &Class) -> String {
    format!("{} | {} | {}", class.density, class.tightness, class.reach)
}

/// The proved engines against the fastest plain SAC-1 of each class.
fn print_ratios(all: &[Measured]) {
    let reach = ["density", "tightness", "reach"];
    let sheets = ["first seed", "wiped out", "offered", "fastest plain SAC-1", "its µs"];
    let engines = ["engine 1", "engine 2", "engine 3", "engine 1 to one by one", "engine 1 to branching"];
    heading(&[&reach[..], &sheets, &engines].concat());
    for measured in all {
        let fastest = measured.fastest(&PLAIN_SAC1);
        row(&[
            label(&measured.class),
            measured.first_seed.to_string(),
            format!("{} of {}", measured.wiped, measured.offered.len()),
            format!("{:.0} %", 100.0 * median(&measured.offered)),
            fastest.role.to_string(),
            format!("{:.1}", fastest.median()),
            over(measured.column(ENGINE_1), fastest),
            over(measured.column(Role::Proved(Engine::Sac2)), fastest),
            over(measured.column(Role::Proved(Engine::Queue)), fastest),
            over(measured.column(ENGINE_1), measured.fastest(&ONE_BY_ONE)),
            over(measured.column(ENGINE_1), measured.column(Role::Branching)),
        ]);
    }
}

/// Engine 1 at reach 24, over all sheets of one size.
fn print_summary(all: &[Measured]) {
    let against = |roles: &[Role]| -> Vec<f64> {
        let at_24 = all.iter().filter(|measured| measured.class.reach == WHOLE_REACH);
        at_24.flat_map(|measured| measured.column(ENGINE_1).ratios(measured.fastest(roles))).collect()
    };
    println!("\nEngine 1 at reach 24, median of {} sheets:\n", against(&PLAIN_SAC1).len());
    println!("- {:.2} of the fastest plain SAC-1 of the class;", median(&against(&PLAIN_SAC1)));
    println!("- {:.2} of the fastest that revises one neighbour after the other;", median(&against(&ONE_BY_ONE)));
    println!("- {:.2} of the one with a branch for each value.", median(&against(&[Role::Branching])));
}

/// Every plain SAC-1 against the fastest, at reach 24.
fn print_closings(all: &[Measured]) {
    let names = PLAIN_SAC1.map(|role| role.to_string());
    heading(&[&["density", "tightness", "reach"][..], &names.each_ref().map(String::as_str)].concat());
    for measured in all.iter().filter(|measured| measured.class.reach == WHOLE_REACH) {
        let fastest = measured.fastest(&PLAIN_SAC1);
        row(&[&[label(&measured.class)][..], &PLAIN_SAC1.map(|role| over(measured.column(role), fastest))].concat());
    }
}

/// The tables alone: one field of the start set is empty, so that an engine stops as soon as its tables are built.
fn print_tables(effort: Effort) {
    heading(&["fields", "settings", "density", "engine 1, µs", "fastest plain, µs", "ratio"]);
    for &(fields, settings, density) in effort.some_of(&[(24, 24, 0.2), (24, 24, 0.5), (24, 24, 1.0), (8, 6, 0.5), (8, 6, 1.0)]) {
        let class = Class { fields, settings, density, tightness: 0.5, reach: WHOLE_REACH };
        let measured = Measured::new(class, 1, effort, |job| job.start[0] = 0);
        let (engine_1, fastest) = (measured.column(ENGINE_1), measured.fastest(&PLAIN_SAC1));
        let times = [engine_1, fastest].map(|column| format!("{:.2}", column.median()));
        row(&[format!("{fields} | {settings} | {density}"), times.join(" | "), over(engine_1, fastest)]);
    }
}

/// How the time of engine 1 grows with one quantity, the others held.
fn print_growth(title: &str, classes: &[Class], effort: Effort) {
    println!("\n{title}:");
    heading(&["fields", "settings", "density", "wiped out", "tests", "engine 1, µs", "fastest plain SAC-1, µs"]);
    for &class in effort.some_of(classes) {
        let measured = measure(class, 1, effort);
        let fastest = measured.fastest(&PLAIN_SAC1);
        row(&[
            class.fields.to_string(),
            class.settings.to_string(),
            class.density.to_string(),
            format!("{} of {}", measured.wiped, measured.offered.len()),
            format!("{:.0}", median(&fastest.tests)),
            format!("{:.1}", measured.column(ENGINE_1).median()),
            format!("{:.1}", fastest.median()),
        ]);
    }
}

/// The same classes measured twice: the medians, and how far apart they are.
fn print_noise(first: &[&Measured], second: &[Measured]) {
    heading(&["fields", "density", "tightness", "reach", "engine 1, µs", "again", "engine 1 to the fastest plain", "again"]);
    let (mut worst_time, mut worst_ratio) = (0.0, 0.0);
    for (first, second) in first.iter().zip(second) {
        let [a, b] = [first, second].map(|m| m.column(ENGINE_1));
        let times = [a, b].map(Column::median);
        let against = [a.over(first.fastest(&PLAIN_SAC1)), b.over(second.fastest(&PLAIN_SAC1))];
        worst_time = apart(times).max(worst_time);
        worst_ratio = apart(against).max(worst_ratio);
        let numbers = [times, against].map(|[x, y]| format!("{x:.2} | {y:.2}"));
        row(&[first.class.fields.to_string(), label(&first.class), numbers.join(" | ")]);
    }
    println!("\nLargest difference of two medians: {worst_time:.1} % of a time, {worst_ratio:.1} % of a ratio.");
}

fn main() {
    let begun = Instant::now();
    let extent = Extent::asked();
    let (large, small, growth) = (extent.effort(7, 60), extent.effort(15, 10), extent.effort(5, 40));
    println!("## 24 fields of 24 settings");
    let mut all = measure_all(24, 24, LARGE, REACHES, large);
    print_ratios(&all);
    print_summary(&all);
    print_closings(&all);
    println!("\n## 8 fields of 6 settings");
    let all_small = measure_all(8, 6, SMALL, REACHES, small);
    print_ratios(&all_small);
    print_summary(&all_small);
    print_closings(&all_small);
    all.extend(all_small);
    println!("\n## The tables alone");
    print_tables(growth);
    println!("\n## Growth of engine 1 at reach 24, tightness 0.1");
    for (title, classes) in growing() {
        print_growth(title, &classes, growth);
    }
    println!("\n## Noise");
    let mut again = measure_all(24, 24, LARGE, &[WHOLE_REACH], large);
    again.extend(measure_all(8, 6, SMALL, &[WHOLE_REACH], small));
    let at_24: Vec<&Measured> = all.iter().filter(|measured| measured.class.reach == WHOLE_REACH).collect();
    print_noise(&at_24, &again);
    println!("\nThe run took {:.0} s.", begun.elapsed().as_secs_f64());
}
