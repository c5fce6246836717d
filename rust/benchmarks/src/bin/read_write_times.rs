//! Reading and writing sheets: the proved library beside plain Rust, as Markdown tables. Buffers are not cleared in between.

use belaykeel::raw::{self, SHEET_BYTES, SHEET_NUMBERS};
use benchmarks::effort::{Effort, Extent};
use benchmarks::measure::{median, timed};
use benchmarks::plain::read_write;
use benchmarks::report::{heading, row};
use benchmarks::sheets::{HARDEST, PAGES};
use benchmarks::WHOLE_REACH;
use harness::sheets::{largest, numbers};
use solver::reading::groups;
use solver::Sheet;
use std::hint::black_box;

/// How many calls are timed together.
const BATCH: usize = 20;

/// Microseconds of each call: the best of several rounds, in each of which batches of the calls run one after the other.
fn best_times<const N: usize>(mut calls: [&mut dyn FnMut() -> bool; N], effort: Effort) -> [f64; N] {
    let mut best = [f64::MAX; N];
    for _ in effort.rounds() {
        for (call, best) in calls.iter_mut().zip(&mut best) {
            let (accepted, time) = timed(|| (0..BATCH).all(|_| call()));
            assert!(accepted);
            *best = best.min(time / BATCH as f64);
        }
    }
    best
}

/// Microseconds of reading: proved, plain with all checked before a number is written, plain in one pass, decoding alone.
fn read(list: &[u32], effort: Effort) -> [f64; 4] {
    let bytes = groups(list);
    let mut outputs = [(); 4].map(|()| vec![0; SHEET_NUMBERS]);
    let [proved, plain, at_once, decoded] = &mut outputs;
    let mut proved = || raw::read(black_box(&bytes), proved).number == 0;
    let mut plain = || read_write::read(black_box(&bytes), plain).number == 0;
    let mut at_once = || read_write::read_at_once(black_box(&bytes), at_once).is_ok();
    let mut decode = || read_write::decode(black_box(&bytes), &mut decoded[..list.len()]).is_ok();
    let times = best_times([&mut proved, &mut plain, &mut at_once, &mut decode], effort);
    assert!(outputs.iter().all(|output| output[..list.len()] == *list));
    times
}

/// Microseconds of writing: proved, plain.
fn write(list: &[u32], effort: Effort) -> [f64; 2] {
    let mut outputs = [(); 2].map(|()| vec![0; SHEET_BYTES]);
    let [proved, plain] = &mut outputs;
    let mut proved = || raw::write(black_box(list), proved).number == 0;
    let mut plain = || read_write::write(black_box(list), plain).number == 0;
    let times = best_times([&mut proved, &mut plain], effort);
    let bytes = groups(list);
    assert!(outputs.iter().all(|output| output[..bytes.len()] == *bytes));
    times
}

/// A row with the median over some sheets of each time, and of the ratio of the first to each other one.
fn print_row<const N: usize>(label: String, lists: &[Vec<u32>], measure: fn(&[u32], Effort) -> [f64; N], effort: Effort) {
    let times: Vec<[f64; N]> = lists.iter().map(|list| measure(list, effort)).collect();
    let bytes: Vec<f64> = lists.iter().map(|list| groups(list).len() as f64).collect();
    let column = |of: &dyn Fn(&[f64; N]) -> f64| median(&times.iter().map(of).collect::<Vec<f64>>());
    let mut cells = vec![label, format!("{:.0}", median(&bytes)), format!("{:.1}", column(&|times| times[0]))];
    for place in 1..N {
        cells.push(format!("{:.1}", column(&|times| times[place])));
        cells.push(format!("{:.2}", column(&|times| times[0] / times[place])));
    }
    row(&cells);
}

/// The sheet with kind 1 in the place of kind 2, which is not written; the list is as long.
fn without_kind_2(mut sheet: Sheet) -> Sheet {
    for rule in sheet.rules.iter_mut().filter(|rule| rule.kind == 2) {
        rule.kind = 1;
    }
    sheet
}

/// The lists of numbers of the sheets that are measured, made from the sheets by this.
fn lists(effort: Effort, made: fn(Sheet) -> Sheet) -> Vec<(String, Vec<Vec<u32>>)> {
    let mut all = vec![("largest".to_string(), vec![largest()])];
    for series in effort.some_of(&PAGES).iter().chain(effort.some_of(&HARDEST)) {
        let sheets = series.sheets(effort.sheets, WHOLE_REACH).into_iter();
        all.push((series.source.label(), sheets.map(|sheet| numbers(&made(sheet))).collect()));
    }
    all
}

fn main() {
    let effort = Extent::asked().effort(3, 100);
    let first = ["sheets", "bytes"];
    let plain = ["plain, µs", "ratio", "plain in one pass, µs", "ratio", "decoding alone, µs", "ratio"];
    heading(&[&first[..], &["proved `read`, µs"], &plain].concat());
    for (label, lists) in lists(effort, |sheet| sheet) {
        print_row(label, &lists, read, effort);
    }
    heading(&[&first[..], &["proved `write`, µs"], &plain[..2]].concat());
    for (label, lists) in lists(effort, without_kind_2) {
        print_row(label, &lists, write, effort);
    }
}
