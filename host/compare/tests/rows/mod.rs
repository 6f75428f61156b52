//! The rows of a report.

use keeper_compare::report::Report;

/// The row that has this in it counts so many or more.
pub fn met(report: &Report, name: &str, least: u64) {
    let text = report.to_string();
    let row = text.lines().find(|line| line.contains(name));
    let count = row.and_then(|row| row.split('|').nth(2)?.trim().parse::<u64>().ok());
    assert!(count >= Some(least), "{name}: {row:?}");
}
