//! Faults in delivery.rs.

use crate::{variant, Variant};
use keeper_reference::{delivery, Rules, PLAIN};
use keeper_values::numbers::types;

pub fn variants() -> Vec<Variant> {
    let fault = |fault, rules| variant("delivery", fault, rules);
    vec![
        fault(
            "expires only above the timeout",
            Rules {
                expired: |settings, clock, stamp| clock - stamp > u64::from(settings.timeout),
                ..PLAIN
            },
        ),
        fault(
            "never expires",
            Rules {
                expired: |_, _, _| false,
                ..PLAIN
            },
        ),
        fault(
            "retries an expired transaction",
            Rules {
                forgotten_when_undelivered: |_| false,
                ..PLAIN
            },
        ),
        fault(
            "forgets an expired header",
            Rules {
                forgotten_when_undelivered: |type_id| {
                    type_id == types::TRANSACTION || type_id == types::HEADER
                },
                ..PLAIN
            },
        ),
        fault(
            "gives up one check late",
            Rules {
                given_up: |settings, checks| checks > settings.max_checks,
                ..PLAIN
            },
        ),
        fault(
            "never gives up at limit 0",
            Rules {
                given_up: |settings, checks| {
                    settings.max_checks != 0 && checks >= settings.max_checks
                },
                ..PLAIN
            },
        ),
        fault(
            "a retry keeps its older stamp",
            Rules {
                retried_stamp: |_, _, stamp| stamp,
                ..PLAIN
            },
        ),
        fault(
            "a retry is stamped with the end of its timeout",
            Rules {
                retried_stamp: |settings, _, stamp| stamp + u64::from(settings.timeout),
                ..PLAIN
            },
        ),
        fault(
            "a retry is stamped with the last step's clock",
            Rules {
                check_timeouts: |run| {
                    let earlier = run.state.last_clock;
                    let check = delivery::check_timeouts(run);
                    for retry in &check.retries {
                        if let Some(request) = run.state.pending.get_mut(&retry.id) {
                            request.stamp = earlier;
                        }
                    }
                    check
                },
                ..PLAIN
            },
        ),
        fault(
            "a check keeps the evicted list",
            Rules {
                check_timeouts: |run| {
                    let check = delivery::check_timeouts(run);
                    run.state.evicted.clone_from(&check.fresh);
                    check
                },
                ..PLAIN
            },
        ),
        fault(
            "hands out repeats in the evicted list once",
            Rules {
                check_timeouts: |run| {
                    let mut check = delivery::check_timeouts(run);
                    check.fresh.sort_unstable();
                    check.fresh.dedup();
                    check
                },
                ..PLAIN
            },
        ),
        fault(
            "hands the evicted list out sorted",
            Rules {
                check_timeouts: |run| {
                    let mut check = delivery::check_timeouts(run);
                    check.fresh.sort_unstable();
                    check
                },
                ..PLAIN
            },
        ),
        fault(
            "counts an abandoned id as forgotten",
            Rules {
                check_timeouts: |run| {
                    let mut check = delivery::check_timeouts(run);
                    std::mem::swap(&mut check.abandoned, &mut check.forgotten);
                    check
                },
                ..PLAIN
            },
        ),
        fault(
            "a request starts with the last step's clock",
            Rules {
                mark_requested: |run, ids, peer, type_id| {
                    delivery::mark_requested(run, ids, peer, type_id);
                    for id in ids {
                        if let Some(request) = run.state.pending.get_mut(id) {
                            request.stamp = run.state.last_clock;
                        }
                    }
                },
                ..PLAIN
            },
        ),
        fault(
            "a retry starts the checks anew",
            Rules {
                mark_retried: |run, ids, peer| {
                    delivery::mark_retried(run, ids, peer);
                    for id in ids {
                        if let Some(request) = run.state.pending.get_mut(id) {
                            request.checks = 0;
                        }
                    }
                },
                ..PLAIN
            },
        ),
        fault(
            "a retry stays noted for the failed peer",
            Rules {
                mark_retried: |_, _, _| {},
                ..PLAIN
            },
        ),
        fault(
            "a received id leaves the evicted list too",
            Rules {
                mark_received: |run, ids| {
                    delivery::mark_received(run, ids);
                    run.state.evicted.retain(|id| !ids.contains(id));
                },
                ..PLAIN
            },
        ),
        fault(
            "received ids stay pending",
            Rules {
                mark_received: |_, _| {},
                ..PLAIN
            },
        ),
        fault(
            "only pending ids are noted as evicted",
            Rules {
                schedule_rerequest: |run, ids| {
                    let noted: Vec<_> = ids
                        .iter()
                        .copied()
                        .filter(|id| run.state.pending.contains_key(id))
                        .collect();
                    delivery::schedule_rerequest(run, &noted);
                },
                ..PLAIN
            },
        ),
        fault(
            "evicted ids stay pending",
            Rules {
                schedule_rerequest: |run, ids| run.state.evicted.extend(ids),
                ..PLAIN
            },
        ),
        fault(
            "an id evicted twice is noted once",
            Rules {
                schedule_rerequest: |run, ids| {
                    for id in ids {
                        run.state.pending.remove(id);
                        if !run.state.evicted.contains(id) {
                            run.state.evicted.push(*id);
                        }
                    }
                },
                ..PLAIN
            },
        ),
        fault(
            "a lost peer's transactions are asked for again",
            Rules {
                purge_peer: |run, peer| {
                    let owed = |id: &_| run.state.pending[id].peer == peer;
                    let transactions: Vec<_> = run
                        .state
                        .pending
                        .iter()
                        .filter(|(id, r)| owed(*id) && r.type_id == types::TRANSACTION)
                        .map(|(id, _)| *id)
                        .collect();
                    let mut orphans = delivery::purge_peer(run, peer);
                    if !transactions.is_empty() {
                        orphans.insert(types::TRANSACTION, transactions);
                    }
                    orphans
                },
                ..PLAIN
            },
        ),
        fault(
            "a lost peer's transactions stay pending",
            Rules {
                purge_peer: |run, peer| {
                    let before = run.state.pending.clone();
                    let orphans = delivery::purge_peer(run, peer);
                    let spared = before
                        .into_iter()
                        .filter(|(_, r)| r.peer == peer && r.type_id == types::TRANSACTION);
                    run.state.pending.extend(spared);
                    orphans
                },
                ..PLAIN
            },
        ),
        fault(
            "a reorg empties the evicted list",
            Rules {
                purge_all: |run| {
                    run.state.pending.clear();
                    run.state.evicted.clear();
                },
                ..PLAIN
            },
        ),
        fault(
            "a reorg spares what is pending",
            Rules {
                purge_all: |_| {},
                ..PLAIN
            },
        ),
    ]
}
