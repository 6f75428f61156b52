//! docs/JUDGE.md tells the options, the keepers to try and a report as they are.

mod common;

use common::{few_streams, judged, shipped};
use keeper_judge::{Options, USAGE};
use std::collections::BTreeSet;
use std::process::Command;
use std::time::Duration;

const PAGE: &str = include_str!("../../../docs/JUDGE.md");

/// The words that begin so, in code, in the first cells of the tables below a heading.
fn rows(heading: &str) -> BTreeSet<&'static str> {
    let part = PAGE.split("\n## ").find(|part| part.starts_with(heading));
    let rows = part.expect("the heading").lines();
    rows.filter_map(|row| row.strip_prefix("| ")?.split(" | ").next())
        .flat_map(|cell| cell.split('`').skip(1).step_by(2))
        .filter_map(|words| words.split(' ').next())
        .collect()
}

#[test]
fn the_options() {
    let words = USAGE
        .lines()
        .filter_map(|line| line.trim().split(' ').next());
    let told: BTreeSet<&str> = words.filter(|word| word.starts_with("--")).collect();
    assert_eq!(rows("What is asked"), told);
}

#[test]
fn the_keepers_to_try() {
    let keeper = Command::new(env!("CARGO_BIN_EXE_faulty_keeper"))
        .arg("--help")
        .output();
    let text = keeper.expect("it starts").stdout;
    let text = String::from_utf8(text).expect("text");
    let told = text
        .lines()
        .skip(1)
        .filter_map(|line| line.split_whitespace().next());
    assert_eq!(rows("Keepers to try it on"), told.collect());
    // The package of the keepers is named too: building the player alone leaves them out.
    let build = format!(
        "cargo build --release -p drill -p {}",
        env!("CARGO_PKG_NAME")
    );
    assert!(PAGE.contains(&build));
}

#[test]
fn the_report() {
    let options = Options {
        streams: 0,
        go_on: Duration::from_secs(60),
        ..few_streams()
    };
    let (_, report) = judged(&shipped("older-stamp"), &options);
    assert!(PAGE.contains(&format!("\n```\n{report}```\n")), "{report}");
}
