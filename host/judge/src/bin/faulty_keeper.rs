//! Keepers to try the judge on, one for each mistake. They speak the text form on standard input and
//! output, as a pupil's keeper has to.

use keeper_core::Core;
use keeper_play::Player;
use keeper_reference::{delivery, steps, Reference, Rules, PLAIN};
use keeper_streams::text::Line;
use keeper_values::numbers::limits;
use keeper_values::Keeper;
use std::io::{stdin, stdout, BufRead, Write};
use std::process::ExitCode;
use std::thread::sleep;
use std::time::Duration;

/// A word for each mistake of the class, and the fault by which `keeper_variants` knows it.
const CLASS: [(&str, &str); 8] = [
    ("older-stamp", "a retry keeps its older stamp"),
    (
        "no-check-behind-a-shut-gate",
        "counts no check behind a shut gate",
    ),
    (
        "evicted-emptied-in-a-reorg",
        "a reorg empties the evicted list",
    ),
    (
        "one-block-ahead",
        "a peer one block ahead is a reason to switch",
    ),
    ("retry-to-a-stalled-peer", "a retry goes to a stalled peer"),
    (
        "retry-to-the-failed-peer",
        "where the failed peer alone has not stalled, a retry goes to it again",
    ),
    (
        "synced-by-any-peer",
        "an empty header list is Synced, from any peer",
    ),
    (
        "type-by-its-low-byte",
        "an announced type is known by its low byte",
    ),
];

/// Mistakes whose first wrong answer is a bad one to show: after many calls, with many ids, or none at all.
const LATE: [(&str, &str, Rules); 3] = [
    (
        "never-eleven",
        "a 257th stalled peer is passed over",
        Rules {
            join_stalled: |run| {
                if run.state.stalled.len() < limits::STALLED {
                    steps::join_stalled(run);
                }
            },
            ..PLAIN
        },
    ),
    (
        "hangs-in-a-reorg",
        "a reorg is never answered",
        Rules {
            reorg: |_| loop {
                sleep(Duration::from_secs(60));
            },
            ..PLAIN
        },
    ),
    (
        "evicted-emptied-when-idle",
        "a reorg empties the evicted list when nothing is pending",
        Rules {
            purge_all: |run| {
                if run.state.pending.is_empty() {
                    run.state.evicted.clear();
                }
                delivery::purge_all(run);
            },
            ..PLAIN
        },
    ),
];

fn usage() -> String {
    let late = LATE.iter().map(|(word, fault, _)| (*word, *fault));
    let right = [
        ("none", "no mistake: the reference"),
        ("core", "no mistake: the proved core"),
    ];
    let mut text = "usage: faulty_keeper MISTAKE, one of".to_string();
    for (word, fault) in CLASS.into_iter().chain(late).chain(right) {
        text += &format!("\n  {word:28} {fault}");
    }
    text
}

fn keeper(mistake: &str) -> Option<Box<dyn Keeper>> {
    match mistake {
        "core" => return Some(Box::new(Core)),
        "none" => return Some(Box::new(Reference::plain())),
        _ => {}
    }
    if let Some((_, _, rules)) = LATE.iter().find(|(word, ..)| *word == mistake) {
        return Some(Box::new(Reference { rules: *rules }));
    }
    let (_, fault) = CLASS.iter().find(|(word, _)| *word == mistake)?;
    let variant = keeper_variants::all()
        .into_iter()
        .find(|variant| variant.fault == *fault)?;
    Some(Box::new(variant.keeper))
}

/// Answers each call, and writes the answer out before the next is read.
fn speak(keeper: &dyn Keeper) -> Result<(), String> {
    let mut player = Player::new(keeper);
    let mut out = stdout().lock();
    for text in stdin().lock().lines() {
        let text = text.map_err(|error| error.to_string())?;
        let line = Line::read(&text).ok_or(format!("not of the form: {text}"))?;
        let mut answer = String::new();
        for line in player.play(&line)? {
            answer += &line.write();
            answer.push('\n');
        }
        let written = out.write_all(answer.as_bytes()).and_then(|()| out.flush());
        written.map_err(|error| error.to_string())?;
    }
    Ok(())
}

fn main() -> ExitCode {
    let mistake = std::env::args().nth(1).unwrap_or_default();
    if mistake == "--help" {
        println!("{}", usage());
        return ExitCode::SUCCESS;
    }
    let spoken = keeper(&mistake)
        .ok_or_else(|| format!("no mistake `{mistake}`; `faulty_keeper --help` names them"))
        .and_then(|keeper| speak(keeper.as_ref()));
    match spoken {
        Ok(()) => ExitCode::SUCCESS,
        Err(fault) => {
            eprintln!("faulty_keeper: {fault}");
            ExitCode::from(2)
        }
    }
}
