//! The Markdown tables that the programs print, and what stands in them.

/// Prints the heading of a table.
pub fn heading(cells: &[&str]) {
    println!("\n| {} |", cells.join(" | "));
    println!("|{}", "---|".repeat(cells.len()));
}

/// Prints a row of a table.
pub fn row(cells: &[String]) {
    println!("| {} |", cells.join(" | "));
}

/// Prints how far apart pairs of numbers are: each difference in per cent, with a name.
pub fn print_apart(what: &str, mut list: Vec<(f64, String)>) {
    list.sort_by(|a, b| a.0.total_cmp(&b.0));
    let (count, (largest, name)) = (list.len(), &list[list.len() - 1]);
    let [middle, most] = [count / 2, count * 9 / 10].map(|place| list[place].0);
    let others = format!("nine in ten by up to {most:.0} %, half by up to {middle:.0} %");
    println!("- {count} {what} differ by up to {largest:.0} % ({name}), {others}.");
}

/// The difference of two numbers, in per cent of the smaller.
pub fn apart([x, y]: [f64; 2]) -> f64 {
    100.0 * (x.max(y) / x.min(y) - 1.0)
}

/// The share of so many settings that are offered.
pub fn share(offers: &[u32], settings: usize) -> f64 {
    f64::from(offers.iter().map(|mask| mask.count_ones()).sum::<u32>()) / settings as f64
}
