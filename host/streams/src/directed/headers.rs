//! F-5: empty header lists, of the sync peer and of others.

use crate::build::{id, missing, pending, syncing, Build, CASES, SYNC_PEER};
use crate::Script;
use keeper_values::numbers::kinds;
use keeper_values::{Mode, Request, State};

/// The smallest stream in which the Rust takes itself for synced: a peer without a chain, just after the pick.
pub fn d3() -> Script {
    Build::begun("an empty header list of another peer (D-3)", CASES, 4)
        .announce(6, 101, vec![])
        .done()
}

/// Numbers that differ from the sync peer's by one, or in one byte only, and the ends of the range.
const SENDERS: [u64; 8] = [
    SYNC_PEER,
    SYNC_PEER - 1,
    SYNC_PEER + 1,
    SYNC_PEER + (1 << 8),
    SYNC_PEER + (1 << 32),
    SYNC_PEER + (1 << 56),
    0,
    u64::MAX,
];

/// In both modes, with something in every list of the state, a window to ask for, and a view that has its row or not.
fn senders(scripts: &mut Vec<Script>) {
    let request = Request {
        peer: SYNC_PEER + 1,
        type_id: 102,
        stamp: 0,
        checks: 0,
    };
    for mode in [Mode::Syncing, Mode::Synced] {
        let state = State {
            mode,
            known_tip: 7,
            stalled: vec![9],
            pending: pending(40, 2, request),
            evicted: vec![id(50)],
            last_send: 3,
            last_progress: 4,
            ..syncing(CASES, 10)
        };
        for peer in SENDERS {
            for (gate, rows) in [(true, 1), (false, 1), (true, 0)] {
                let name = format!(
                    "no headers of {peer}, {}, gate {gate}, {rows} rows",
                    mode.name()
                );
                scripts.push(
                    Build::put(&name, state.clone())
                        .at(20)
                        .call(kinds::ANNOUNCED, |c| {
                            c.peer = peer;
                            c.type_id = 101;
                            c.gate = gate;
                            c.height = 1;
                            c.peers = vec![SYNC_PEER + 1, SYNC_PEER];
                            c.view = missing(1, rows);
                        })
                        .done(),
                );
            }
        }
    }
}

/// Between an entry and its send failure, and between two progress steps of which only the first may send.
fn marks(scripts: &mut Vec<Script>) {
    for peer in [SYNC_PEER, 6] {
        scripts.push(
            Build::begun(
                &format!("no headers of {peer} behind an entry"),
                CASES,
                SYNC_PEER,
            )
            .at(5)
            .announce(peer, 101, vec![])
            .call(kinds::SEND_FAILURE, |_| {})
            .done(),
        );
        let marked = State {
            progress_mark: true,
            ..syncing(CASES, 0)
        };
        scripts.push(
            Build::put(
                &format!("no headers of {peer} between two progress steps"),
                marked,
            )
            .announce(peer, 101, vec![])
            .call(kinds::PROGRESS, |_| {})
            .done(),
        );
    }
}

/// Whose list counts changes with the sync peer.
fn changes(scripts: &mut Vec<Script>) {
    let both = |build: Build| build.announce(4, 101, vec![]).announce(6, 101, vec![]);
    let build = Build::begun("no headers, and the sync peer changes", CASES, 4).tip(6, 3, 5);
    let build = both(both(build))
        .call(kinds::LOST_PEER, |c| c.peer = 6)
        .announce(6, 101, vec![])
        .call(kinds::PICK, |c| c.peers = vec![4, 6])
        .announce(6, 101, vec![])
        .announce(4, 101, vec![]);
    scripts.push(build.done());
}

pub fn scripts() -> Vec<Script> {
    let mut scripts = vec![d3()];
    senders(&mut scripts);
    marks(&mut scripts);
    changes(&mut scripts);
    scripts
}
