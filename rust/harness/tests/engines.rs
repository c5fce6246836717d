//! Which algorithm an engine's number runs. No answer depends on it, so it is seen in how often the library closes: once at its start, once
//! in each test, and once after each removal. Callgrind counts that in the library as it is built. The expected counts are those of SAC-1,
//! SAC-2 and the queue method over the solver's definitions, on sheets where the three differ. Without valgrind nothing is counted.

use belaykeel::Engine;
use harness::methods::{queued, sac2};
use harness::shapes::Size;
use harness::sheets::bytes;
use harness::{taste, Random};
use solver::network::includes;
use solver::{Network, Sheet};
use std::collections::HashMap;
use std::fs::{read_to_string, File};
use std::path::Path;
use std::process::{Command, Stdio};

/// The function of the library that closes; it is called for each closing.
const CLOSING: &str = "revising::narrow::narrow";

/// How often each engine closes on a sheet that is not wiped out; nothing where it is.
fn expected(sheet: &Sheet) -> Option<[u64; 3]> {
    let network = Network::of(sheet);
    let every: Vec<usize> = (0..sheet.fields()).collect();
    let order: Vec<u8> = (0..).take(sheet.fields()).collect();
    let closed = network.closing(network.full, &every);
    if network.wiped_out(&network.offers(closed, sheet.all_fields())) {
        return None;
    }
    let made = [
        sac2(&network, closed, &order, |_, _| false),
        sac2(&network, closed, &order, includes),
        queued(&network, closed, &order, sheet.reach),
    ];
    Some(made.map(|made| 1 + made.tests + made.removals))
}

/// The calls of a function in what callgrind wrote: a name is given with its number where that first occurs, and by its number after that.
fn calls(profile: &str, function: &str) -> u64 {
    let (mut names, mut callee, mut total) = (HashMap::new(), "", 0);
    for line in profile.lines() {
        if let Some((key, name)) = line.split_once("fn=(").map(|(_, after)| after.split_once(')').unwrap_or((after, ""))) {
            if !name.is_empty() {
                names.insert(key, name.trim());
            }
            if line.starts_with("cfn=") {
                callee = names.get(key).copied().unwrap_or_default();
            }
        } else if let Some(count) = line.strip_prefix("calls=").and_then(|after| after.split(' ').next()) {
            total += if callee == function { count.parse().unwrap_or(0) } else { 0 };
        }
    }
    total
}

/// How often the library closes when an engine opens a sheet.
fn counted(sheet: &Sheet, engine: Engine) -> u64 {
    let (name, folder) = (format!("engine_{}", engine.number()), Path::new(env!("CARGO_TARGET_TMPDIR")));
    let (given, profile) = (folder.join(format!("{name}.sheet")), folder.join(format!("{name}.callgrind")));
    std::fs::write(&given, bytes(sheet)).expect("a file");
    let mut valgrind = Command::new("valgrind");
    valgrind.args(["--quiet", "--tool=callgrind", &format!("--callgrind-out-file={}", profile.display())]);
    valgrind.args([env!("CARGO_BIN_EXE_open_sheet"), &engine.number().to_string()]).stdin(File::open(given).expect("the sheet"));
    assert!(valgrind.stdout(Stdio::null()).status().expect("valgrind").success());
    calls(&read_to_string(profile).expect("a profile"), CLOSING)
}

#[test]
fn calls_are_counted() {
    let profile = "fn=(1) main\ncfn=(2) f\ncalls=3 1\n1 5\nfn=(2)\ncfn=(3) g\ncalls=4 1\n1 5\nfn=(3)\ncfn=(2)\ncalls=5 1\n1 5\n";
    assert_eq!(["f", "g", "main"].map(|name| calls(profile, name)), [8, 4, 0]);
}

/// At a short reach and at reach 24, on the first of the random sheets where the three engines make different numbers of tests.
#[test]
fn each_number_runs_its_algorithm() {
    if Command::new("valgrind").arg("--version").stdout(Stdio::null()).status().is_err() {
        println!("no valgrind: nothing is counted");
        return;
    }
    for reach in [2, 24] {
        let mut random = Random(7);
        let sheets = std::iter::repeat_with(|| Sheet { reach, ..taste::sheet(&mut random, Size::Small) });
        let differ = |closings: &[u64; 3]| closings[1] < closings[2] && closings[2] < closings[0];
        let mut found = sheets.filter_map(|sheet| expected(&sheet).filter(differ).map(|closings| (sheet, closings)));
        let (sheet, closings) = found.next().expect("a sheet");
        println!("closings at reach {reach}: {closings:?}");
        let sheet = &sheet;
        let counts = std::thread::scope(|scope| {
            let started = Engine::ALL.map(|engine| scope.spawn(move || counted(sheet, engine)));
            started.map(|count| count.join().expect("a count"))
        });
        assert_eq!(counts, closings, "{sheet:?}");
    }
}
