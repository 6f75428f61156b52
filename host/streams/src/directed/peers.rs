//! Rule 1, the stalled set, and the steps that change the mode.

use crate::build::{ids, syncing, Build, CASES};
use crate::Script;
use keeper_values::numbers::kinds;
use keeper_values::{Mode, Settings, State};

/// Picks with none, some and all of the listed peers stalled.
fn picks(scripts: &mut Vec<Script>) {
    let seeking = |stalled: &[u64]| State {
        mode: Mode::Seeking,
        sync_peer: None,
        stalled: stalled.to_vec(),
        sends_counted: 5,
        last_progress: 0,
        ..syncing(CASES, 3)
    };
    for stalled in [vec![], vec![4], vec![5, 4], vec![0]] {
        for peers in [vec![], vec![4], vec![4, 5], vec![0, 4], vec![4, 4, 5]] {
            scripts.push(
                Build::put(
                    &format!("pick {peers:?} with {stalled:?} stalled"),
                    seeking(&stalled),
                )
                .at(9)
                .call(kinds::PICK, |c| c.peers = peers.clone())
                .call(kinds::PICK, |c| c.peers = vec![5])
                .done(),
            );
        }
    }
    let many: Vec<u64> = (1..=128).collect();
    for free in [1, 64, 128] {
        let stalled: Vec<u64> = (1..=128).filter(|peer| *peer != free).collect();
        scripts.push(
            Build::put(&format!("128 peers, {free} free"), seeking(&stalled))
                .call(kinds::PICK, |c| c.peers = many.clone())
                .done(),
        );
    }
}

/// The stall to the millisecond, and a set of 255 and 256.
fn stalls(scripts: &mut Vec<Script>) {
    for clock in [59_999, 60_000, 60_001] {
        scripts.push(
            Build::begun(&format!("stall at {clock}"), CASES, 4)
                .at(clock)
                .call(kinds::SCHEDULED_TICK, |_| {})
                .call(kinds::PICK, |c| c.peers = vec![4, 5])
                .at(2 * clock + 2)
                .call(kinds::SCHEDULED_TICK, |_| {})
                .call(kinds::PICK, |c| c.peers = vec![4, 5])
                .call(kinds::PROGRESS, |_| {})
                .done(),
        );
    }
    for count in [255, 256] {
        for peer in [100, 1_000] {
            let state = State {
                stalled: (1..=count).rev().collect(),
                sync_peer: Some(peer),
                ..syncing(CASES, 0)
            };
            scripts.push(
                Build::put(&format!("{count} stalled, {peer} stalls"), state)
                    .at(60_001)
                    .call(kinds::SCHEDULED_TICK, |_| {})
                    .call(kinds::PICK, |c| c.peers = vec![100, 2_000])
                    .done(),
            );
        }
    }
    // Stalled to the last free place, by steps alone.
    let settings = Settings {
        stall_timeout: 0,
        ..CASES
    };
    let mut build =
        Build::open("257 stall one after another", settings, 0, 0).call(kinds::START, |_| {});
    for peer in 1..=257 {
        build = build
            .at(2 * peer)
            .call(kinds::PICK, |c| c.peers = vec![peer])
            .at(2 * peer + 1)
            .call(kinds::SCHEDULED_TICK, |_| {});
    }
    scripts.push(build.call(kinds::PROGRESS, |_| {}).done());
}

/// Who empties the stalled set, and who does not.
fn emptied(scripts: &mut Vec<Script>) {
    for kind in kinds::START..=kinds::LAST {
        for mode in [Mode::Syncing, Mode::Synced] {
            let state = State {
                mode,
                stalled: vec![8, 3],
                ..syncing(CASES, 5)
            };
            scripts.push(
                Build::put(&format!("stalled set, kind {kind}, {}", mode.name()), state)
                    .at(6)
                    .call(kind, |c| {
                        c.peer = 7;
                        c.parsed = true;
                        c.has_tip = true;
                        c.tip = 9;
                        c.ids = ids(1, 1);
                    })
                    .call(kinds::OTHER_MESSAGE, |_| {})
                    .done(),
            );
        }
    }
}

/// Ends of the stream in each mode. In seeking the Rust judges it after a fruitless pick only (D-1).
fn ends(scripts: &mut Vec<Script>) {
    for mode in [Mode::Syncing, Mode::Synced] {
        let state = State {
            mode,
            stalled: vec![8],
            ..syncing(CASES, 5)
        };
        scripts.push(
            Build::put(&format!("end in {}", mode.name()), state)
                .announce(6, 102, ids(1, 2))
                .call(kinds::END_OF_STREAM, |_| {})
                .call(kinds::PICK, |_| {})
                .call(kinds::END_OF_STREAM, |_| {})
                .call(kinds::END_OF_STREAM, |_| {})
                .call(kinds::PICK, |c| c.peers = vec![4])
                .done(),
        );
    }
    scripts.push(d1());
}

/// D-1's smallest input: start, pick, a tick that stalls, end of stream.
pub fn d1() -> Script {
    Build::begun("end of stream in seeking, 4 stalled (D-1)", CASES, 4)
        .at(60_001)
        .call(kinds::SCHEDULED_TICK, |_| {})
        .call(kinds::END_OF_STREAM, |_| {})
        .done()
}

/// Synced: ticks without peers, with peers, Synced again, switching back.
fn synced(scripts: &mut Vec<Script>) {
    for peers in [vec![], vec![6, 4]] {
        scripts.push(
            Build::synced("synced ticks", CASES, 4)
                .announce(6, 102, ids(1, 2))
                .announce(7, 101, vec![])
                .announce(4, 101, vec![])
                .tip(4, 3, 3)
                .tip(6, 3, 3)
                .call(kinds::SCHEDULED_TICK, |c| {
                    c.peers = peers.clone();
                    c.fails = vec![0];
                })
                .tip(6, 3, 5)
                .call(kinds::PICK, |c| c.peers = peers.clone())
                .done(),
        );
    }
}

pub fn scripts() -> Vec<Script> {
    let mut scripts = Vec::new();
    picks(&mut scripts);
    stalls(&mut scripts);
    emptied(&mut scripts);
    ends(&mut scripts);
    synced(&mut scripts);
    scripts
}
