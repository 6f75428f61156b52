//! Times the core's calls against the original Rust and against memory, on the same data in the same run, and prints the
//! tables of docs/SPEED.md. Every timed call gets ids that no call before had.
//!
//! `keeper_speed` prints them; `keeper_speed --check` also exits with 1 where a case passes something that it is held to
//! by more than a margin, both sides in the best of five attempts; `keeper_speed --repeat CASE CALLS [IDS]` runs the core's calls
//! alone, for a profiler, with ids of a kind that the table of hostile ids names.

mod area;
mod beside;
mod bound;
mod case;
mod cases;
mod data;
mod forecast;
mod growth;
mod hostile;
mod ids;
mod map;
mod mean_age;
mod measure;
mod repeat;
mod table;
mod times;

use case::{Areas, Case};
use measure::{measure, over};
use std::hint::black_box;
use std::process::ExitCode;
use table::Column;

/// Prints a table; answers what is over.
fn shown(title: &str, columns: &[Column], cases: Vec<Case>, areas: &mut Areas) -> Vec<String> {
    let titles: Vec<String> = columns.iter().map(|(title, _)| title.to_string()).collect();
    table::head(title, &titles);
    let measured = measure(&cases, areas);
    for (case, measured) in cases.iter().zip(&measured) {
        table::row(columns, case, measured);
    }
    over(&cases, &measured)
}

fn show_all(areas: &mut Areas) -> Vec<String> {
    use table::{
        BEST, CORE, HASHED, MEMORY, ORDERED, ORIGINAL, PLAIN, READ, TO_HASHED, TO_LIMIT,
        TO_ORDERED, TO_ORIGINAL, TO_PLAIN, TO_READ, WHAT,
    };
    let idle = [WHAT, CORE, BEST, MEMORY, TO_LIMIT];
    let refused = [&idle[..], &[READ, TO_READ, PLAIN, TO_PLAIN]].concat();
    let tracker = [ORDERED, TO_ORDERED, HASHED, TO_HASHED];
    let original = [ORIGINAL, TO_ORIGINAL];
    let steps = [&idle[..], &tracker, &original].concat();
    let questions = [&idle[..], &[PLAIN, TO_PLAIN]].concat();
    let tables = [
        ("### Idle steps", &idle[..], cases::idle()),
        ("### Refused calls", &refused, cases::refused()),
        ("### The tracker's operations", &steps, cases::tracker()),
        ("### Other steps", &steps, cases::others()),
        ("### Questions", &questions, cases::questions()),
    ];
    let mut over = Vec::new();
    for (title, columns, cases) in tables {
        over.extend(shown(title, columns, cases, areas));
    }
    over.extend(map::show(areas));
    over.extend(forecast::show(areas));
    over.extend(mean_age::show(areas));
    over.extend(growth::show(areas));
    over.extend(hostile::show(areas));
    over
}

/// After this the allocator keeps what is freed, as in a process that has run for long: no side is charged for pages that
/// the system hands out.
fn keep_freed_memory() {
    drop(black_box(vec![1_u8; 16 << 20]));
}

fn main() -> ExitCode {
    keep_freed_memory();
    let words: Vec<String> = std::env::args().skip(1).collect();
    let words: Vec<&str> = words.iter().map(String::as_str).collect();
    let mut areas = Areas::new();
    if let ["--repeat", case, calls, ids @ ..] = &words[..] {
        let ids = ids.first().unwrap_or(&"random");
        if !repeat::repeat(case, ids, calls.parse().unwrap_or(0), &mut areas) {
            eprintln!("usage: keeper_speed --repeat CASE CALLS [IDS]");
            return ExitCode::FAILURE;
        }
        return ExitCode::SUCCESS;
    }
    if !keeper_oracle::SOURCE_FOUND {
        println!("The original Rust was not found: its columns are empty.");
    }
    let over = show_all(&mut areas);
    for what in &over {
        println!("\nOVER: {what}");
    }
    if words.contains(&"--check") && !over.is_empty() {
        return ExitCode::FAILURE;
    }
    ExitCode::SUCCESS
}
