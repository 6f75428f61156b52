//! Commands that start a keeper, and the judge on them.

#![allow(dead_code)]

use keeper_judge::{judge, Broken, Draw, Found, Options, Verdict, Wrong};
use std::path::PathBuf;
use std::time::Duration;

/// The shipped keeper with this mistake.
pub fn shipped(mistake: &str) -> String {
    format!("'{}' {mistake}", env!("CARGO_BIN_EXE_faulty_keeper"))
}

/// A shell that passes on what it reads, line by line, to the keeper without a mistake.
pub fn before_the_right_one(script: &str) -> String {
    let keeper = env!("CARGO_BIN_EXE_faulty_keeper");
    format!("sh -c \"{script} | '{keeper}' none\"")
}

/// The directed streams.
pub const DRAW: Draw = Draw {
    streams: 0,
    seed: 1,
    steps: 200,
    questions: true,
};

/// Up to the first wrong answer, so that no clock has a say in what comes out.
pub fn few_streams() -> Options {
    Options {
        streams: 20,
        patience: Duration::from_secs(20),
        go_on: Duration::ZERO,
        ..Options::default()
    }
}

pub fn judged(command: &str, options: &Options) -> (Verdict, String) {
    let mut out = Vec::new();
    let verdict = judge(command, options, &mut out).expect("the keeper starts");
    (verdict, String::from_utf8(out).expect("a report is text"))
}

/// A keeper that does not answer, and whose other process would write on into this file for some seconds.
pub fn writing_on(file: &Scratch) -> String {
    let name = file.0.display();
    let numbers = "0 1 2 3 4 5 6 7 8 9";
    let script = format!("echo on >> {name}; sleep 0.05");
    let script = format!("for n in {numbers}; do for m in {numbers}; do {script}; done; done");
    format!("sh -c '{script} & wait'")
}

/// The page tells that this mistake is shown with so many calls.
pub fn page_says(mistake: &str, calls: usize) {
    let page = include_str!("../../../../docs/JUDGE.md");
    let row = page
        .lines()
        .find(|line| line.starts_with(&format!("| `{mistake}` |")));
    let row = row.expect("the page names the mistake");
    assert!(row.ends_with(&format!("| {calls} calls |")), "{row}");
}

/// What a keeper that breaks off is reported with.
pub fn broken(command: &str) -> (Found, Broken, String) {
    let options = Options {
        patience: Duration::from_millis(300),
        ..few_streams()
    };
    let (verdict, report) = judged(command, &options);
    assert_eq!(verdict.status(), 1);
    let found = verdict.found.expect("it is found");
    let Wrong::Broken(broken) = found.fault.wrong.clone() else {
        panic!("no break: {report}");
    };
    (found, broken, report)
}

/// A file of this test's own, removed at its end.
pub struct Scratch(pub PathBuf);

impl Scratch {
    pub fn new(name: &str) -> Self {
        let name = format!("keeper_judge_{}_{name}", std::process::id());
        Self(std::env::temp_dir().join(name))
    }
}

impl Drop for Scratch {
    fn drop(&mut self) {
        let _ = std::fs::remove_file(&self.0);
    }
}
