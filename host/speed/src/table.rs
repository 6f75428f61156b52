//! Tables in markdown.

use crate::bound::Against;
use crate::case::Case;
use crate::measure::Measured;
use crate::times::against;

/// Nanoseconds with three digits or more.
pub fn nanoseconds(time: Option<f64>) -> String {
    match time {
        Some(time) if time < 100.0 => format!("{time:.1}"),
        Some(time) => grouped(time.round() as u64),
        None => String::from("–"),
    }
}

fn grouped(number: u64) -> String {
    if number < 1_000 {
        return number.to_string();
    }
    format!("{},{:03}", grouped(number / 1_000), number % 1_000)
}

pub fn ratio(ratio: Option<f64>) -> String {
    ratio.map_or(String::from("–"), |ratio| format!("{ratio:.2}"))
}

/// The ratio, and in brackets what the case is held to.
fn held(case: &Case, measured: &Measured, against: Against) -> String {
    let found = measured.ratio(case, against);
    let bound = case.bounds.iter().find(|bound| bound.against == against);
    match bound.filter(|_| found.is_some()) {
        Some(bound) => format!("{} ({:.1})", ratio(found), bound.at_most),
        None => ratio(found),
    }
}

/// A column: its title, and what it shows of a case.
pub type Column = (&'static str, fn(&Case, &Measured) -> String);

pub const WHAT: Column = ("", |case, _| case.name.clone());
pub const CORE: Column = ("core, ns", |_, m| nanoseconds(m.core.median()));
pub const BEST: Column = ("best", |_, m| nanoseconds(m.core.best()));
pub const MEMORY: Column = ("memory, ns", |_, m| nanoseconds(m.memory.median()));
pub const TO_LIMIT: Column = ("to the limit", |case, m| held(case, m, Against::Limit));
pub const READ: Column = ("one read, ns", |_, m| nanoseconds(m.read.median()));
pub const TO_READ: Column = ("ratio", |_, m| ratio(against(&m.core, &m.read)));
pub const ORDERED: Column = ("`BTreeMap`, ns", |_, m| nanoseconds(m.ordered.median()));
pub const TO_ORDERED: Column = ("ratio", |_, m| ratio(against(&m.core, &m.ordered)));
pub const HASHED: Column = ("`HashMap`, ns", |_, m| nanoseconds(m.hashed.median()));
pub const TO_HASHED: Column = ("ratio", |case, m| held(case, m, Against::Hashed));
pub const ORIGINAL: Column = ("the Rust's step, ns", |_, m| {
    nanoseconds(m.original.median())
});
pub const TO_ORIGINAL: Column = ("ratio", |case, m| held(case, m, Against::Original));
pub const PLAIN: Column = ("plain Rust, ns", |_, m| nanoseconds(m.plain.median()));
pub const TO_PLAIN: Column = ("ratio", |_, m| ratio(against(&m.core, &m.plain)));

/// The core's time, and in brackets the ratio to the Rust's step.
pub fn core_to_original(measured: &Measured) -> String {
    let core = nanoseconds(measured.core.median());
    let ratio = ratio(against(&measured.core, &measured.original));
    format!("{core} ({ratio})")
}

pub fn line(cells: &[String]) {
    println!("| {} |", cells.join(" | "));
}

pub fn head(title: &str, columns: &[String]) {
    println!("\n{title}\n");
    line(columns);
    println!("{}|", "|---".repeat(columns.len()));
}

pub fn row(columns: &[Column], case: &Case, measured: &Measured) {
    let cells: Vec<String> = columns
        .iter()
        .map(|(_, show)| show(case, measured))
        .collect();
    line(&cells);
}
