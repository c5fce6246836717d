//! How much a program measures, as its argument says.

use std::ffi::OsString;
use std::path::PathBuf;
use std::process::exit;
use std::time::{Duration, Instant};

/// What a program is asked for.
#[derive(Clone, Copy, PartialEq, Eq)]
pub enum Extent {
    /// `--moment`: every table, with as little in it as can be.
    Moment,
    /// No argument.
    Usual,
    /// `--long`: three times as many sheets, and twice the time for each.
    Long,
}

/// The least rounds in which something is measured, but for a moment.
const LEAST_ROUNDS: usize = 5;

impl Extent {
    /// What the arguments of the program ask for. Others than these end it with status 2.
    pub fn asked() -> Extent {
        let mut all = std::env::args_os();
        let program = all.next().map(PathBuf::from).unwrap_or_default();
        let arguments: Vec<OsString> = all.collect();
        match arguments.iter().map(|argument| argument.to_str()).collect::<Vec<_>>()[..] {
            [] => Extent::Usual,
            [Some("--long")] => Extent::Long,
            [Some("--moment")] => Extent::Moment,
            _ => {
                let name = program.file_name().unwrap_or_default().to_string_lossy();
                eprintln!("usage: {name} [--long | --moment]");
                exit(2)
            }
        }
    }

    /// So many sheets of a class and so many milliseconds for each, where the argument asks for neither more nor less.
    pub fn effort(self, sheets: usize, milliseconds: u64) -> Effort {
        let (sheets, milliseconds, least_rounds) = match self {
            Extent::Moment => (1, 0, 1),
            Extent::Usual => (sheets, milliseconds, LEAST_ROUNDS),
            Extent::Long => (3 * sheets, 2 * milliseconds, LEAST_ROUNDS),
        };
        Effort { extent: self, sheets, budget: Duration::from_millis(milliseconds), least_rounds }
    }
}

/// How many sheets of a class are measured, and for how long each.
#[derive(Clone, Copy)]
pub struct Effort {
    extent: Extent,
    pub sheets: usize,
    budget: Duration,
    least_rounds: usize,
}

impl Effort {
    /// Those of a list that are measured: all, or for a moment the first.
    pub fn some_of<T>(self, list: &[T]) -> &[T] {
        if self.extent == Extent::Moment {
            &list[..1]
        } else {
            list
        }
    }

    /// The rounds in which something is measured, from now until the time is over.
    pub fn rounds(self) -> impl Iterator<Item = usize> {
        let begun = Instant::now();
        (0..).take_while(move |&round| round < self.least_rounds || begun.elapsed() < self.budget)
    }
}
