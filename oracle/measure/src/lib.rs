//! The proved library's times as ratios to the Rust's, in one run on one machine. Below 1 the proved library is faster.

mod added;
mod chosen;
mod columns;
mod images;
mod keys;
mod listings;
mod offsets;
mod refreshes;
mod report;
mod seal;
mod sizes;
mod tables;

use report::Report;

pub use seal::seal;

/// In how many runs a row may come within its limit: single runs on a shared machine differ much.
const TRIES: usize = 3;

fn run(report: &mut Report) {
    offsets::intersect(report);
    keys::index(report);
    tables::operations(report);
    sizes::sizes(report);
    chosen::colliding(report);
    refreshes::refreshes(report);
    columns::orders(report);
    images::images(report);
    listings::listings(report);
    added::added(report);
}

/// A line for each thing measured whose name has this part: the medians of so many runs.
pub fn bench(runs: usize, part: &str) {
    let mut report = Report::of(part);
    for _ in 0..runs.max(1) {
        run(&mut report);
    }
    report.print();
}

/// Measures all rows; an error if one is above what is recorded of it.
pub fn check() -> Result<(), String> {
    let mut report = Report::of("");
    for _ in 0..TRIES {
        run(&mut report);
        if report.above().is_empty() {
            break;
        }
    }
    report.print();
    let mut above = report.above();
    above.extend(report.more_above());
    match above {
        above if above.is_empty() => Ok(()),
        above => Err(format!("above its record:\n{}", above.join("\n"))),
    }
}
