//! The judge as a program of its own.

use std::process::ExitCode;

fn main() -> ExitCode {
    let words: Vec<String> = std::env::args().skip(1).collect();
    ExitCode::from(keeper_judge::run("keeper_judge", &words))
}
