//! Document 01's cases, on the reference.

use keeper_reference::{delivery, image, steps, sync, Reference, PLAIN};
use keeper_values::numbers::{kinds, outcomes};
use keeper_values::{
    Answer, Call, Keeper, Mode, Place, Request, Row, Settings, State, TypeId, View,
};

const SETTINGS: Settings = Settings {
    timeout: 10_000,
    max_checks: 2,
    min_sync_send_interval: 0,
    stall_timeout: 60_000,
};

fn syncing(settings: Settings) -> State {
    State {
        mode: Mode::Syncing,
        progress_mark: false,
        entry_mark: false,
        last_clock: 0,
        settings,
        last_progress: 0,
        last_send: 0,
        sync_peer: Some(4),
        sends_counted: 0,
        downloaded: 0,
        known_tip: 0,
        stalled: vec![],
        pending: Default::default(),
        evicted: vec![],
    }
}

/// One step from a state: its answer, the state after, and the counts of ids in its commands.
fn step(state: &State, call: &Call) -> (Answer, State, Vec<usize>) {
    let mut area = image::write(state);
    let mut commands = vec![0; 65_536];
    let answer = Reference::plain().step(&mut area, &mut commands, &call.to_arguments());
    assert_eq!(answer.number, 0);
    let written = keeper_values::read_commands(&commands[..answer.length as usize]);
    let written = written.expect("whole commands");
    let counts = written.iter().map(|c| c.ids.len());
    let after = image::read(&PLAIN, &area).expect("well formed");
    (answer, after, counts.collect())
}

fn check(state: &State, clock: u64) -> (Answer, State) {
    let call = Call {
        kind: kinds::CHECK,
        clock,
        gate: true,
        peers: vec![4, 5],
        ..Call::default()
    };
    let (answer, state, _) = step(state, &call);
    (answer, state)
}

fn one_pending(settings: Settings, type_id: TypeId) -> State {
    let request = Request {
        peer: 4,
        type_id,
        stamp: 0,
        checks: 0,
    };
    State {
        pending: [([1; 32], request)].into(),
        ..syncing(settings)
    }
}

#[test]
fn timeouts() {
    let state = one_pending(SETTINGS, 102);
    assert!(!delivery::expired(&SETTINGS, 9_999, 0));
    let (_, kept) = check(&state, 9_999);
    assert_eq!(kept.pending, state.pending);
    let (answer, retried) = check(&state, 10_000);
    let request = retried.pending[&[1; 32]];
    assert_eq!(
        (answer.retried, request.stamp, request.checks),
        (1, 10_000, 1)
    );
    let (answer, gone) = check(&retried, 20_000);
    assert_eq!((answer.abandoned, gone.pending.len()), (1, 0));
    for max_checks in [0, 1] {
        let settings = Settings {
            max_checks,
            ..SETTINGS
        };
        let (answer, gone) = check(&one_pending(settings, 102), 10_000);
        assert_eq!((answer.abandoned, gone.pending.len()), (1, 0));
    }
    let (answer, gone) = check(&one_pending(SETTINGS, 2), 10_000);
    assert_eq!((answer.forgotten, gone.pending.len()), (1, 0));
}

#[test]
fn tips() {
    assert_eq!(steps::judge_tip(true, 50, 50), outcomes::SYNCED);
    assert_eq!(steps::judge_tip(true, 51, 50), outcomes::CONTINUE);
    assert_eq!(steps::judge_tip(true, 52, 50), outcomes::BEHIND_PEER);
    assert_eq!(steps::judge_tip(false, 50, 50), outcomes::CONTINUE);
}

#[test]
fn runs_and_windows() {
    let call = Call {
        kind: kinds::ANNOUNCED,
        gate: true,
        type_id: 102,
        ids: vec![[1; 32]; 401],
        ..Call::default()
    };
    assert_eq!(step(&syncing(SETTINGS), &call).2, [400, 1]);
    for (downloaded, count) in [(0, 192), (400, 100)] {
        let row = |height: u32| {
            let mut id = [0; 32];
            id[28..].copy_from_slice(&height.to_be_bytes());
            Row::Present(vec![Place {
                type_id: 102,
                id,
                stored: false,
            }])
        };
        let call = Call {
            kind: kinds::PROGRESS,
            gate: true,
            height: 500,
            peers: vec![4],
            view: View {
                first: 1,
                rows: (1..=500).map(row).collect(),
            },
            ..Call::default()
        };
        let state = State {
            downloaded,
            progress_mark: true,
            ..syncing(SETTINGS)
        };
        let (_, after, counts) = step(&state, &call);
        assert_eq!(counts, [count]);
        let first = after.pending.keys().next().expect("pending");
        assert_eq!(first[28..], (downloaded + 1).to_be_bytes());
    }
}

#[test]
fn stalled_peers() {
    let mut state = State {
        stalled: vec![4],
        ..syncing(SETTINGS)
    };
    assert_eq!(sync::select_peer(&mut state.clone(), &[4, 5]), Some(5));
    assert_eq!(sync::select_peer(&mut state, &[]), None);
    assert!(state.stalled.is_empty());
    for (clock, outcome) in [(60_000, outcomes::CONTINUE), (60_001, outcomes::STALLED)] {
        let call = Call {
            kind: kinds::SCHEDULED_TICK,
            clock,
            ..Call::default()
        };
        assert_eq!(step(&syncing(SETTINGS), &call).0.outcome, outcome);
    }
}
