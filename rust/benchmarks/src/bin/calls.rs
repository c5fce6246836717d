//! The public calls of the proved library beside plain Rust, as Markdown tables. Every time is that of a whole call, from the sheet's bytes
//! to session and offers. With `--long`, three times as many sheets, and twice the time for each.

use belaykeel::Engine;
use benchmarks::contestants::{libraries, Left};
use benchmarks::effort::{Effort, Extent};
use benchmarks::measure::{self, median};
use benchmarks::report::{apart, heading, print_apart, row, share};
use benchmarks::role::{Role, PLAIN, PLAIN_SAC1};
use benchmarks::sheets::{growing, Class, Series, Source, HARDEST, PAGES, REACHES};
use benchmarks::task::{Chosen, Task, CALLS};
use benchmarks::WHOLE_REACH;
use solver::reading::sheet;
use std::time::Instant;

type Measured = measure::Measured<Left>;

const ENGINE_1: Role = Role::Proved(Engine::Sac1);

/// A row of the main tables.
struct Line {
    series: Series,
    reach: u32,
    call: usize,
    /// For each sheet the share of its settings that are offered after the call.
    offered: Vec<f64>,
    measured: Measured,
}

fn choose_sheets(all: &[Series], effort: Effort) -> Vec<Chosen> {
    effort.some_of(all).iter().map(|&series| Chosen::new(series, effort.sheets)).collect()
}

/// Measures every call on the sheets of these series, at the reaches that are wanted.
fn measure(all: &[Chosen], wanted: &[u32], effort: Effort) -> Vec<Line> {
    let mut lines = vec![];
    for chosen in all {
        let series = chosen.series;
        let mut libraries = libraries(series.source.fields());
        for &reach in series.reaches.iter().filter(|reach| wanted.contains(reach)) {
            for call in 0..CALLS.len() {
                let tasks = chosen.tasks(call, reach);
                let measured = Measured::new(&mut libraries, &tasks, effort);
                let offered = tasks.iter().zip(&measured.answers).map(|(task, left)| offered(task, left)).collect();
                lines.push(Line { series, reach, call, offered, measured });
            }
        }
    }
    lines
}

/// The share of the sheet's settings that a call left on the offers list.
fn offered(task: &Task, left: &Left) -> f64 {
    let sheet = sheet(&task.sheet).expect("a sheet");
    share(&left.2[..sheet.fields()], sheet.settings.iter().map(Vec::len).sum())
}

/// The median over the sheets of an engine's time over that of the fastest plain SAC-1.
fn ratio(measured: &Measured, engine: Engine) -> String {
    format!("{:.2}", measured.column(Role::Proved(engine)).over(measured.fastest(&PLAIN_SAC1)))
}

/// The cells about times: the fastest plain SAC-1, and the engines to it.
fn cells(measured: &Measured) -> Vec<String> {
    let plain = measured.fastest(&PLAIN_SAC1);
    let mut cells = vec![plain.role.to_string(), format!("{:.1}", plain.median())];
    cells.extend(Engine::ALL.map(|engine| ratio(measured, engine)));
    cells.push(format!("{:.2}", measured.column(ENGINE_1).over(measured.fastest(&PLAIN))));
    cells
}

const CELLS: [&str; 6] = ["fastest plain SAC-1", "its µs", "engine 1", "engine 2", "engine 3", "engine 1 to any plain"];

fn print_lines(lines: &[Line]) {
    heading(&[&["sheets", "reach", "call", "offered"][..], &CELLS].concat());
    for line in lines {
        let offered = format!("{:.0} %", 100.0 * median(&line.offered));
        let label = [line.series.source.label(), line.reach.to_string(), CALLS[line.call].into(), offered];
        row(&[&label[..], &cells(&line.measured)].concat());
    }
    println!("\nMedian over all sheets and calls at reach 24, to the fastest plain SAC-1 of the row:\n");
    for engine in Engine::ALL {
        let at_24 = lines.iter().filter(|line| line.reach == WHOLE_REACH).map(|line| &line.measured);
        let all: Vec<f64> = at_24.flat_map(|m| m.column(Role::Proved(engine)).ratios(m.fastest(&PLAIN_SAC1))).collect();
        println!("- engine {}: {:.2} ({} calls).", engine.number(), median(&all), all.len());
    }
}

/// Open on sheets that are wiped out: number 14.
fn print_wiped_out(effort: Effort) {
    heading(&[&["sheets", "reach", "call"][..], &CELLS].concat());
    for &(tightness, first_seed) in effort.some_of(&[(0.52, 10_000), (0.7, 12_000)]) {
        let source = Source::Random(Class::largest(1.0, tightness));
        let sheets = (first_seed..).take(effort.sheets).map(|seed| source.sheet(seed));
        let tasks: Vec<Task> = sheets.map(|sheet| Task { number: 14, ..Task::open(&sheet) }).collect();
        let measured = Measured::new(&mut libraries(source.fields()), &tasks, effort);
        row(&[&[source.label(), "24".into(), "open, refused with 14".into()][..], &cells(&measured)].concat());
    }
}

/// What engine 1 and the fastest plain SAC-1 take for the parts of an open: reading and checks, tables, search, in microseconds.
struct Parts {
    engine_1: [f64; 3],
    plain: [f64; 3],
    /// The whole open.
    open: Measured,
}

impl Parts {
    fn new(fields: usize, opens: &[Task], effort: Effort) -> Parts {
        let mut libraries = libraries(fields);
        let mut measured = |change: fn(&Task) -> Task| {
            let tasks: Vec<Task> = opens.iter().map(change).collect();
            Measured::new(&mut libraries, &tasks, effort)
        };
        let (read, tables, open) = (measured(Task::without_order), measured(Task::with_two_choices), measured(Task::clone));
        let parts = |role: Role| {
            let [read, tables, open] = [&read, &tables, &open].map(|measured| measured.column(role).median());
            [read, tables - read, open - tables]
        };
        let (engine_1, plain) = (parts(ENGINE_1), parts(open.fastest(&PLAIN_SAC1).role));
        Parts { engine_1, plain, open }
    }
}

fn part_cells(parts: [f64; 3]) -> [String; 3] {
    parts.map(|part| format!("{part:.1}"))
}

const PARTS: [&str; 3] = ["reading and checks", "tables", "search"];

/// Where the time of an open goes.
fn print_parts(all: &[Chosen], effort: Effort) {
    let engine_1 = ["engine 1: reading and checks, µs", PARTS[1], PARTS[2]];
    let plain = ["plain: reading and checks, µs", PARTS[1], PARTS[2]];
    heading(&[&["sheets"][..], &engine_1, &plain].concat());
    for chosen in all {
        let source = chosen.series.source;
        let parts = Parts::new(source.fields(), &chosen.tasks(0, WHOLE_REACH), effort);
        row(&[&[source.label()][..], &part_cells(parts.engine_1), &part_cells(parts.plain)].concat());
    }
}

/// How the time of open grows with one quantity, the others held.
fn print_growth(title: &str, classes: &[Class], effort: Effort) {
    println!("\n{title}:");
    let first = ["fields", "settings", "density", "bytes", "engine 1, µs"];
    heading(&[&first[..], &PARTS, &["fastest plain SAC-1, µs", "engine 1 to it"]].concat());
    for class in effort.some_of(classes) {
        let opens: Vec<Task> = (1..).take(effort.sheets).map(|seed| Task::open(&class.sheet(seed))).collect();
        let parts = Parts::new(class.fields, &opens, effort);
        let [engine_1, plain] = [&[ENGINE_1][..], &PLAIN_SAC1].map(|roles| format!("{:.1}", parts.open.fastest(roles).median()));
        let mut cells = vec![class.fields.to_string(), class.settings.to_string(), class.density.to_string()];
        cells.extend([opens[0].sheet.len().to_string(), engine_1]);
        cells.extend(part_cells(parts.engine_1));
        cells.extend([plain, ratio(&parts.open, Engine::Sac1)]);
        row(&cells);
    }
}

/// The lines at reach 24 measured twice: how far apart the medians are.
fn print_noise(first: &[&Line], second: &[Line]) {
    let (mut times, mut against) = (vec![], vec![]);
    for (first, second) in first.iter().zip(second) {
        let pair = [&first.measured, &second.measured];
        let name = |who: &str| format!("{who}, {}, {}", CALLS[first.call], first.series.source.label());
        times.push((apart(pair.map(|measured| measured.fastest(&PLAIN_SAC1).median())), name("plain")));
        for role in Engine::ALL.map(Role::Proved) {
            let columns = pair.map(|measured| (measured.column(role), measured.fastest(&PLAIN_SAC1)));
            times.push((apart(columns.map(|(column, _)| column.median())), name(&role.to_string())));
            against.push((apart(columns.map(|(column, plain)| column.over(plain))), name(&role.to_string())));
        }
    }
    print_apart("medians of times", times);
    print_apart("medians of ratios", against);
}

fn main() {
    let begun = Instant::now();
    let extent = Extent::asked();
    let (small, large, parts) = (extent.effort(7, 15), extent.effort(3, 100), extent.effort(3, 20));
    let (pages, hard) = (choose_sheets(&PAGES, small), choose_sheets(&HARDEST, large));
    println!("### Set-up pages");
    let page_lines = measure(&pages, REACHES, small);
    print_lines(&page_lines);
    println!("\n### Hardest sheets, 24 fields of 24 settings");
    let hard_lines = measure(&hard, REACHES, large);
    print_lines(&hard_lines);
    println!("\n### Wiped out at open");
    print_wiped_out(large);
    println!("\n### Where the time of open goes, at reach 24");
    print_parts(&pages, parts);
    print_parts(&hard, parts);
    println!("\n### Growth of open, engine 1, reach 24, tightness 0.1");
    for (title, classes) in growing() {
        print_growth(title, &classes, parts);
    }
    println!("\n### Noise\n\nThe rows at reach 24, measured a second time at the end of the run:\n");
    let mut again = measure(&pages, &[WHOLE_REACH], small);
    again.extend(measure(&hard, &[WHOLE_REACH], large));
    let at_24: Vec<&Line> = page_lines.iter().chain(&hard_lines).filter(|line| line.reach == WHOLE_REACH).collect();
    print_noise(&at_24, &again);
    println!("\nThe run took {:.0} s.", begun.elapsed().as_secs_f64());
}
