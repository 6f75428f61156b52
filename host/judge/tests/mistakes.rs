//! Each mistake of the class is caught, and its stream is short and can be played again.

mod common;

use common::{few_streams, judged, page_says, shipped, Scratch, DRAW};
use keeper_judge::{streams, Options, Wrong};
use std::fs;

/// Caught by the directed streams; the report says this; the saved stream tells it from the right ones.
fn caught(mistake: &str, says: &[&str]) {
    let saved = Scratch::new(mistake);
    let options = Options {
        save: Some(saved.0.clone()),
        ..few_streams()
    };
    let (verdict, report) = judged(&shipped(mistake), &options);
    let found = verdict.found.expect("it is caught");
    assert!(verdict.streams <= streams(DRAW).count() as u64);
    assert!(found.alone);
    assert!(matches!(found.fault.wrong, Wrong::Differs(_)));
    assert_eq!(found.fault.at, found.stream.calls.len(), "cut after it");
    page_says(mistake, found.stream.calls.len());
    for text in says {
        assert!(report.contains(text), "{text}: {report}");
    }
    let text = fs::read_to_string(&saved.0).expect("it is saved");
    assert!(report.contains(&text), "the report shows the saved stream");

    let replay = Options {
        replay: Some(saved.0.clone()),
        ..few_streams()
    };
    let (again, _) = judged(&shipped(mistake), &replay);
    let again = again.found.expect("it differs again");
    assert_eq!((again.stream, again.fault), (found.stream, found.fault));
    for right in ["none", "core"] {
        assert_eq!(judged(&shipped(right), &replay).0.status(), 0, "{right}");
    }
}

#[test]
fn restarting_with_the_older_stamp() {
    caught(
        "older-stamp",
        &[
            "stamp of pending id ..0001: yours 0, the core's 1",
            "stamp = this clock",
        ],
    );
}

#[test]
fn counting_no_check_behind_a_shut_gate() {
    caught(
        "no-check-behind-a-shut-gate",
        &["check: clock 0, gate shut", "rule 6"],
    );
}

#[test]
fn emptying_the_evicted_list_in_a_reorg() {
    caught(
        "evicted-emptied-in-a-reorg",
        &[
            "evicted: yours none, the core's ..0001",
            "spares the evicted list",
        ],
    );
}

#[test]
fn switching_to_a_peer_one_block_ahead() {
    caught(
        "one-block-ahead",
        &[
            "outcome: yours 2 BehindPeer, the core's 0 Continue",
            "rule 7",
        ],
    );
}

#[test]
fn retrying_with_a_stalled_peer() {
    caught(
        "retry-to-a-stalled-peer",
        &[
            "command 0: yours request type 102 to 2, ",
            "document 02, F-8: \"Take the first listed peer neither failed nor stalled",
        ],
    );
}

#[test]
fn retrying_with_the_failed_peer() {
    caught(
        "retry-to-the-failed-peer",
        &[
            "command 0: yours request type 101 to 1, ",
            "document 02, F-8: \"Take the first listed peer neither failed nor stalled",
        ],
    );
}

#[test]
fn taking_any_peer_for_the_sync_peer() {
    caught(
        "synced-by-any-peer",
        &[
            "outcome: yours 1 Synced, the core's 0 Continue",
            "document 02, F-5: \"an empty header list from the sync peer gives Synced",
        ],
    );
}

#[test]
fn knowing_a_type_by_its_low_byte() {
    caught(
        "type-by-its-low-byte",
        &[
            "from peer 1, type 258, ids ..0001",
            "F-6: \"no other type is requested from an announcement\"",
        ],
    );
}

#[test]
fn the_right_ones_pass() {
    for right in ["none", "core"] {
        let (verdict, report) = judged(&shipped(right), &few_streams());
        assert_eq!(verdict.status(), 0, "{report}");
        assert_eq!(verdict.streams, streams(DRAW).count() as u64 + 20);
        assert!(report.starts_with("No difference in "));
    }
}

#[test]
fn the_same_seed_gives_the_same_report() {
    let judge = || judged(&shipped("older-stamp"), &few_streams());
    assert_eq!(judge(), judge());
}
