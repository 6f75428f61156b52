//! delivery.rs and rule 6.

use crate::build::{id, ids, pending, syncing, Build, CASES};
use crate::Script;
use keeper_values::numbers::kinds;
use keeper_values::{Mode, Request, Settings, State, TypeId};

pub(super) fn request(peer: u64, type_id: TypeId, stamp: u64, checks: u32) -> Request {
    Request {
        peer,
        type_id,
        stamp,
        checks,
    }
}

/// Timeouts to the millisecond, for each limit and for a transaction.
fn timeouts(scripts: &mut Vec<Script>) {
    for limit in [0, 1, 2, 3] {
        for type_id in [2, 101, 102, 104, 108, 9] {
            let settings = Settings {
                max_checks: limit,
                ..CASES
            };
            let mut build = Build::begun(
                &format!("timeout limit {limit} type {type_id}"),
                settings,
                4,
            );
            build = build.call(kinds::NEEDED, |c| {
                c.type_id = type_id;
                c.ids = ids(1, 1);
            });
            for clock in [0, 9_999, 10_000, 19_999, 20_000, 29_999, 30_000] {
                build = build.at(clock).check(&[4, 5]);
            }
            scripts.push(build.done());
        }
    }
    for timeout in [0, 1, u32::MAX] {
        let settings = Settings { timeout, ..CASES };
        let limit = u64::from(timeout);
        scripts.push(
            Build::begun(&format!("timeout {timeout}"), settings, 4)
                .announce(4, 102, ids(1, 2))
                .at(limit.saturating_sub(1))
                .check(&[4, 5])
                .at(limit)
                .check(&[4, 5])
                .at(2 * limit)
                .check(&[4, 5])
                .done(),
        );
    }
    // The older stamp would let the second check come too early.
    scripts.push(
        Build::begun("late check", CASES, 4)
            .announce(4, 102, ids(1, 1))
            .at(17_000)
            .check(&[4, 5])
            .at(20_000)
            .check(&[4, 5])
            .at(26_999)
            .check(&[4, 5])
            .at(27_000)
            .check(&[4, 5])
            .done(),
    );
}

/// Where retries go, open and behind a shut gate, and with some of the listed peers stalled: none of them that matters, the
/// first, all but the failed one, all.
fn targets(scripts: &mut Vec<Script>) {
    let lists: [&[u64]; 9] = [
        &[],
        &[4],
        &[4, 4],
        &[5],
        &[4, 5],
        &[5, 4],
        &[5, 5, 4],
        &[4, 4, 6, 5],
        &[9, 4, 5],
    ];
    let state = State {
        pending: [
            (id(1), request(4, 102, 0, 0)),
            (id(2), request(5, 101, 0, 0)),
            (id(3), request(4, 101, 0, 0)),
            (id(4), request(5, 102, 3_000, 0)),
            (id(5), request(4, 102, 0, 1)),
            (id(6), request(9, 2, 0, 0)),
            (id(7), request(9, 102, 0, 0)),
            (id(8), request(4, 102, 0, 0)),
        ]
        .into(),
        evicted: vec![id(5), id(1), id(6), id(9), id(9)],
        last_clock: 5_000,
        last_progress: 0,
        last_send: 0,
        ..syncing(CASES, 0)
    };
    for peers in lists {
        for gate in [true, false] {
            for mode in [Mode::Syncing, Mode::Synced] {
                let state = State {
                    mode,
                    ..state.clone()
                };
                scripts.push(
                    Build::put(
                        &format!("retry to {peers:?}, gate {gate}, {}", mode.name()),
                        state,
                    )
                    .at(10_000)
                    .call(kinds::CHECK, |c| {
                        c.gate = gate;
                        c.peers = peers.to_vec();
                        c.stored = [(101, id(9)), (102, id(1)), (101, id(6))].into();
                        c.fails = vec![1];
                    })
                    .at(20_000)
                    .check(peers)
                    .done(),
                );
            }
        }
    }
    let stalled: [&[u64]; 7] = [&[7], &[4], &[5], &[4, 5], &[9, 4], &[6, 4], &[6, 5, 4, 9]];
    for peers in lists {
        for stalled in stalled {
            let state = State {
                stalled: stalled.to_vec(),
                ..state.clone()
            };
            scripts.push(
                Build::put(&format!("retry to {peers:?}, {stalled:?} stalled"), state)
                    .at(10_000)
                    .check(peers)
                    .at(20_000)
                    .check(peers)
                    .done(),
            );
        }
    }
}

/// One id, retried at checks that list these peers. The sync peer plays no part.
fn retried(failed: u64, stalled: &[u64], lists: &[&[u64]]) -> Script {
    let settings = Settings {
        max_checks: 3,
        ..CASES
    };
    let state = State {
        sync_peer: Some(9),
        stalled: stalled.to_vec(),
        pending: pending(1, 1, request(failed, 102, 0, 0)),
        ..syncing(settings, 0)
    };
    let name = format!("{failed} failed, {stalled:?} stalled, listed {lists:?}");
    let mut build = Build::put(&name, state);
    for (peers, clock) in lists.iter().zip([10_000, 20_000]) {
        build = build.at(clock).check(peers);
    }
    build.done()
}

/// D-2's smallest input: of the listed 4, 5 and 6 the first is stalled and the second has failed.
pub fn d2() -> Script {
    retried(5, &[4], &[&[4, 5, 6]])
}

/// The smallest input in which F-8 parts from F-2: of the listed 4 and 5 the first is stalled and the second has failed.
pub fn d2_parting() -> Script {
    retried(5, &[4], &[&[4, 5]])
}

/// Short streams for each case of the choice: a peer to pass over; only the failed one not stalled, which is where F-8 parts
/// from F-2; all stalled; none listed. And two of them one after the other.
fn passed_over(scripts: &mut Vec<Script>) {
    scripts.extend([
        d2(),
        retried(5, &[4], &[&[6, 4]]),
        d2_parting(),
        retried(5, &[4], &[&[5, 5, 4]]),
        retried(5, &[4, 6], &[&[5, 6, 4]]),
        retried(4, &[4, 5], &[&[4, 5]]),
        retried(4, &[4], &[&[4]]),
        retried(9, &[4], &[&[]]),
        retried(5, &[4, 7], &[&[4, 5], &[4, 7]]),
        retried(5, &[7, 4], &[&[5, 4], &[7, 4]]),
    ]);
}

/// Eviction, with ids pending or not, repeats, and the check after it.
fn evictions(scripts: &mut Vec<Script>) {
    for peers in [vec![], vec![5, 4]] {
        scripts.push(
            Build::begun("evicted", CASES, 4)
                .announce(4, 102, ids(1, 4))
                .call(kinds::EVICTED, |c| c.ids = vec![id(2), id(7), id(2)])
                .call(kinds::EVICTED, |c| c.ids = vec![id(7)])
                .call(kinds::RECEIVED, |c| c.ids = vec![id(7), id(1)])
                .call(kinds::REORG, |c| c.peers = vec![4])
                .at(1)
                .check(&peers)
                .at(2)
                .check(&peers)
                .done(),
        );
    }
    scripts.push(
        Build::begun("evicted behind a shut gate", CASES, 4)
            .call(kinds::EVICTED, |c| c.ids = ids(1, 3))
            .call(kinds::CHECK, |c| {
                c.gate = false;
                c.peers = vec![4];
            })
            .check(&[4])
            .done(),
    );
    scripts.push(
        Build::begun("evicted and stored", CASES, 4)
            .call(kinds::EVICTED, |c| c.ids = ids(1, 3))
            .call(kinds::CHECK, |c| {
                c.peers = vec![6, 4];
                c.stored = [(101, id(2)), (102, id(1))].into();
            })
            .done(),
    );
    // Abandoned or forgotten, and fresh in the same check.
    let state = State {
        pending: [
            (id(1), request(4, 102, 0, 1)),
            (id(2), request(4, 2, 0, 0)),
            (id(3), request(4, 104, 0, 0)),
        ]
        .into(),
        evicted: vec![id(3), id(2), id(1), id(2)],
        ..syncing(CASES, 0)
    };
    scripts.push(
        Build::put("abandoned and fresh at once", state)
            .at(10_000)
            .check(&[4, 5])
            .done(),
    );
}

/// Lost sync peer: by types, without transactions.
fn lost(scripts: &mut Vec<Script>) {
    let owed = State {
        pending: [
            (id(1), request(4, 108, 0, 1)),
            (id(2), request(4, 2, 0, 0)),
            (id(3), request(4, 101, 0, 0)),
            (id(4), request(5, 101, 0, 0)),
            (id(5), request(4, 108, 0, 0)),
            (id(6), request(4, 7, 0, 0)),
            (id(7), request(0, 102, 0, 0)),
        ]
        .into(),
        evicted: vec![id(3)],
        ..syncing(CASES, 0)
    };
    for mode in [Mode::Syncing, Mode::Synced] {
        for gate in [true, false] {
            for peers in [vec![], vec![4], vec![5, 4]] {
                for peer in [4, 5] {
                    let state = State {
                        mode,
                        ..owed.clone()
                    };
                    let name = format!("lost {peer}, {} gate {gate} {peers:?}", mode.name());
                    scripts.push(
                        Build::put(&name, state)
                            .call(kinds::LOST_PEER, |c| {
                                c.peer = peer;
                                c.gate = gate;
                                c.peers = peers.clone();
                                c.stored = [(108, id(5)), (101, id(1))].into();
                            })
                            .call(kinds::PICK, |c| c.peers = vec![8])
                            .done(),
                    );
                }
            }
        }
    }
}

pub fn scripts() -> Vec<Script> {
    let mut scripts = Vec::new();
    timeouts(&mut scripts);
    targets(&mut scripts);
    passed_over(&mut scripts);
    evictions(&mut scripts);
    lost(&mut scripts);
    scripts
}
