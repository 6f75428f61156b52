//! Commands that hold oracle, reference, core and variants against each other; without one they are listed.

mod commands;

use std::process::ExitCode;

const USAGE: &str = "\
usage: keeper_compare COMMAND
  quick [SEED]         oracle, reference and core; fixed list, hostile bytes, variants; under a minute
  run STEPS [SEED]     oracle, reference and core, at least so many steps; prints the report
  variants             the table of faulty variants and what tells them apart
  hostile STEPS [SEED] core against reference on damaged calls and random bytes
  make-list            the fixed list, on standard output
  wrap                 sends counted at 2^32 - 1; for a build without overflow checks";

fn number(word: Option<&String>) -> Option<u64> {
    word.and_then(|word| word.replace('_', "").parse().ok())
}

fn main() -> ExitCode {
    let words: Vec<String> = std::env::args().skip(1).collect();
    let command = words.first().map(String::as_str).unwrap_or_default();
    let done = match (command, number(words.get(1)), number(words.get(2))) {
        ("quick", seed, _) => commands::quick(seed),
        ("run", Some(steps), seed) => commands::run(steps, seed),
        ("variants", _, _) => commands::variants(),
        ("hostile", Some(steps), seed) => commands::hostile(steps, seed),
        ("make-list", _, _) => commands::make_list(),
        ("wrap", _, _) => commands::wrap(),
        _ => Err(USAGE.to_string()),
    };
    match done {
        Ok(()) => ExitCode::SUCCESS,
        Err(fault) => {
            eprintln!("{fault}");
            ExitCode::FAILURE
        }
    }
}
