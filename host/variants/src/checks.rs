//! Faults in rule 6.

use crate::{variant, Variant};
use keeper_reference::sync::{self, Stored};
use keeper_reference::{delivery, Rules, PLAIN};
use keeper_values::numbers::types;
use keeper_values::TypeId;

pub fn variants() -> Vec<Variant> {
    let fault = |fault, rules| variant("rule 6", fault, rules);
    vec![
        fault(
            "a retry goes to the first listed peer, failed or not",
            Rules {
                retry_target: |stalled, peers, failed| {
                    let unstalled = peers.iter().find(|peer| !stalled.contains(peer));
                    unstalled.or(peers.first()).copied().unwrap_or(failed)
                },
                ..PLAIN
            },
        ),
        fault(
            "a retry goes to the last other peer",
            Rules {
                retry_target: |stalled, peers, failed| {
                    let backwards: Vec<u64> = peers.iter().rev().copied().collect();
                    sync::retry_target(stalled, &backwards, failed)
                },
                ..PLAIN
            },
        ),
        fault(
            "batches go by type, then target",
            Rules {
                retry_batches: |run, retries| {
                    let mut batches = sync::retry_batches(run, retries);
                    batches.sort_by_key(|(target, type_id, _)| (*type_id, *target));
                    batches
                },
                ..PLAIN
            },
        ),
        fault(
            "each retry is a batch of its own",
            Rules {
                retry_batches: |run, retries| {
                    let batches = sync::retry_batches(run, retries);
                    let single = |(target, type_id, ids): (u64, TypeId, Vec<_>)| {
                        ids.into_iter().map(move |id| (target, type_id, vec![id]))
                    };
                    batches.into_iter().flat_map(single).collect()
                },
                ..PLAIN
            },
        ),
        fault(
            "retries go out behind a shut gate",
            Rules {
                send_retries: |run, retries| {
                    let gate = std::mem::replace(&mut run.inputs.gate, true);
                    sync::send_retries(run, retries);
                    run.inputs.gate = gate;
                },
                ..PLAIN
            },
        ),
        fault(
            "counts no check behind a shut gate",
            Rules {
                handle_delivery_check: |run| {
                    if run.inputs.gate {
                        sync::handle_delivery_check(run);
                    }
                },
                ..PLAIN
            },
        ),
        fault(
            "retried is 0 behind a shut gate",
            Rules {
                handle_delivery_check: |run| {
                    sync::handle_delivery_check(run);
                    if !run.inputs.gate {
                        run.counts[0] = 0;
                    }
                },
                ..PLAIN
            },
        ),
        fault(
            "fresh ids that nobody gets are not counted",
            Rules {
                handle_delivery_check: |run| {
                    sync::handle_delivery_check(run);
                    if run.inputs.peers.is_empty() {
                        run.counts[1] = 0;
                    }
                },
                ..PLAIN
            },
        ),
        fault(
            "fresh ids go out before the retries",
            Rules {
                handle_delivery_check: |run| {
                    let check = delivery::check_timeouts(run);
                    run.counts = [
                        check.retries.len() as u32,
                        check.fresh.len() as u32,
                        check.abandoned,
                        check.forgotten,
                    ];
                    sync::send_fresh(run, &check.fresh);
                    sync::send_retries(run, &check.retries);
                },
                ..PLAIN
            },
        ),
        fault(
            "fresh ids go to the sync peer",
            Rules {
                send_fresh: |run, fresh| {
                    let peer = run.state.sync_peer.unwrap_or(0);
                    if !run.inputs.peers.is_empty() {
                        sync::request_announced(run, peer, types::HEADER, fresh, Stored::ByPairs);
                    }
                },
                ..PLAIN
            },
        ),
        fault(
            "fresh ids wait for a peer or an open gate",
            Rules {
                send_fresh: |run, fresh| {
                    sync::send_fresh(run, fresh);
                    if run.inputs.peers.is_empty() || !run.inputs.gate {
                        run.state.evicted = fresh.to_vec();
                    }
                },
                ..PLAIN
            },
        ),
    ]
}
