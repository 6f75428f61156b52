//! Of the wrong answers of a keeper the simplest is shown, by the calls and the bytes of its report, and within the time
//! that was given.

mod common;

use common::{few_streams, judged, page_says, shipped, Scratch};
use keeper_judge::Options;
use std::fs;
use std::time::{Duration, Instant};

/// The first wrong answer is a 10 that is not given, with a thousand ids. Shrinking trades it for one with an id.
#[test]
fn a_refusal_is_traded_for_a_finished_step() {
    let (verdict, report) = judged(&shipped("evicted-emptied-when-idle"), &few_streams());
    let found = verdict.found.expect("it is found");
    assert_eq!(found.stream.calls.len(), 4, "{report}");
    assert!(report.len() < 3_000, "{report}");
    assert!(report.contains("spares the evicted list"), "{report}");
}

#[test]
fn the_simplest_kind_is_shown() {
    let mistake = "evicted-emptied-when-idle";
    let options = Options {
        go_on: Duration::from_secs(60),
        ..few_streams()
    };
    let (verdict, report) = judged(&shipped(mistake), &options);
    let found = verdict.found.expect("it is found");
    page_says(mistake, found.stream.calls.len());
    assert!(found.met < 20, "met in a short stream: {report}");
    assert!(report.len() < 3_000, "{report}");
    assert_eq!(found.others, ["number 0 for 10 in reorg"]);
    let says = "1 other kind of wrong answer was met: number 0 for 10 in reorg.\n";
    assert!(report.contains(says), "{report}");
}

/// No call of it can be spared; the time ends the search for one.
#[test]
fn shrinking_ends_in_time() {
    let mistake = "never-eleven";
    let saved = Scratch::new(mistake);
    let options = Options {
        shrink: Duration::from_secs(1),
        save: Some(saved.0.clone()),
        streams: 0,
        ..few_streams()
    };
    let (verdict, report) = judged(&shipped(mistake), &options);
    let found = verdict.found.expect("it is found");
    page_says(mistake, found.stream.calls.len());
    assert_eq!(found.out_of_time, Some(Duration::from_secs(1)));
    assert!(report.contains("cut off after 1 second (--shrink)"));
    assert!(report.contains("\n.. 492 calls are left out ..\n"));
    assert!(report.contains("\nThis is not the whole stream: `--save FILE` writes it.\n"));
    assert!(report.len() < 6_000, "{}", report.len());
    let whole = fs::read_to_string(&saved.0).expect("it is saved");
    let steps = whole.lines().filter(|line| line.starts_with("step "));
    assert_eq!(steps.count(), found.stream.calls.len());
}

/// Each try that hangs is waited for less long than the patience; what is reported was waited for so long.
#[test]
fn a_hang_is_made_short_in_time() {
    let mistake = "hangs-in-a-reorg";
    let options = Options {
        patience: Duration::from_secs(2),
        shrink: Duration::from_secs(10),
        ..few_streams()
    };
    let start = Instant::now();
    let (verdict, report) = judged(&shipped(mistake), &options);
    let found = verdict.found.expect("it is found");
    page_says(mistake, found.stream.calls.len());
    assert!(report.contains("no whole answer within 2000 ms"));
    assert!(start.elapsed() < Duration::from_secs(30));
}
