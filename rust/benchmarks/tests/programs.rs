//! Every program runs for a moment and fills all of its tables, and refuses an argument that it does not know.

use std::collections::BTreeSet;
use std::path::Path;
use std::process::{Command, Output};

/// A program: its name, its file and how many tables it prints.
struct Program {
    name: &'static str,
    file: &'static str,
    tables: usize,
}

/// The programs of these names, each with how many tables it prints.
macro_rules! programs {
    ($($name:literal: $tables:literal,)*) => {
        &[$(Program { name: $name, file: env!(concat!("CARGO_BIN_EXE_", $name)), tables: $tables },)*]
    };
}

const PROGRAMS: &[Program] = programs! {
    "calls": 8,
    "closings": 5,
    "engines": 9,
    "read_write_times": 2,
    "savings": 5,
    "selections": 2,
    "triple_costs": 2,
};

impl Program {
    fn run(&self, arguments: &[&str]) -> Output {
        Command::new(self.file).args(arguments).output().unwrap_or_else(|error| panic!("{}: {error}", self.name))
    }

    /// Runs the program for a moment and looks at its tables.
    fn check(&self) {
        let Output { status, stdout, stderr } = self.run(&["--moment"]);
        let (printed, said) = (String::from_utf8_lossy(&stdout), String::from_utf8_lossy(&stderr));
        assert!(status.success() && said.is_empty(), "{}: {status}\n{printed}\n{said}", self.name);
        let tables = tables(&printed);
        assert_eq!(tables.len(), self.tables, "tables of {}:\n{printed}", self.name);
        assert!(tables.iter().all(|table| is_filled(table)), "{}:\n{printed}", self.name);
    }
}

/// The tables of a page, each with its lines.
fn tables(page: &str) -> Vec<Vec<&str>> {
    let lines: Vec<&str> = page.lines().collect();
    let runs = lines.chunk_by(|a, b| a.starts_with('|') == b.starts_with('|'));
    runs.filter(|run| run[0].starts_with('|')).map(<[&str]>::to_vec).collect()
}

/// Whether a table has a row below its heading and the line of dashes, and all of its lines have as many cells.
fn is_filled(table: &[&str]) -> bool {
    let cells = |line: &str| line.matches('|').count();
    table.len() > 2 && table[1].starts_with("|---|") && table.iter().all(|line| cells(line) == cells(table[0]))
}

#[test]
fn every_program_is_listed() {
    let folder = Path::new(env!("CARGO_MANIFEST_DIR")).join("src/bin");
    let files = std::fs::read_dir(folder).expect("the folder of the programs").map(|entry| entry.expect("a file").path());
    let names: BTreeSet<String> = files.map(|path| path.file_stem().unwrap_or_default().to_string_lossy().into_owned()).collect();
    assert_eq!(names, PROGRAMS.iter().map(|program| program.name.to_string()).collect());
}

#[test]
fn programs_fill_their_tables() {
    std::thread::scope(|scope| {
        for program in PROGRAMS {
            scope.spawn(|| program.check());
        }
    });
}

#[test]
fn other_arguments_are_refused() {
    for arguments in [&["--short"][..], &["long"], &["--long", "--moment"], &["--long", "more"], &[""]] {
        for program in PROGRAMS {
            let Output { status, stdout, stderr } = program.run(arguments);
            assert_eq!((status.code(), stdout.len()), (Some(2), 0), "{} {arguments:?}", program.name);
            assert_eq!(String::from_utf8_lossy(&stderr), format!("usage: {} [--long | --moment]\n", program.name));
        }
    }
}
