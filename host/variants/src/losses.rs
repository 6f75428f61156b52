//! Faults in rule 9: lost peers, failed sends, ends, received and evicted ids.

use crate::{variant, Variant};
use keeper_reference::steps::{self, is_sync_peer, seek, sync_peer};
use keeper_reference::{delivery, sync, Rules, PLAIN};
use keeper_values::numbers::outcomes;
use keeper_values::Mode;

pub fn variants() -> Vec<Variant> {
    let fault = |fault, rules| variant("rule 9, losses", fault, rules);
    vec![
        fault(
            "a lost sync peer's ids are asked for again in synced too",
            Rules {
                lost_peer: |run| {
                    if is_sync_peer(run) {
                        run.state.mode = Mode::Syncing;
                    }
                    steps::lost_peer(run)
                },
                ..PLAIN
            },
        ),
        fault(
            "a lost sync peer's ids stay pending in syncing",
            Rules {
                lost_peer: |run| {
                    if !is_sync_peer(run) {
                        return Ok(outcomes::CONTINUE);
                    }
                    seek(run);
                    Ok(outcomes::PEER_GONE)
                },
                ..PLAIN
            },
        ),
        fault(
            "any lost peer's ids are purged",
            Rules {
                lost_peer: |run| {
                    if !is_sync_peer(run) {
                        delivery::purge_peer(run, run.inputs.peer);
                    }
                    steps::lost_peer(run)
                },
                ..PLAIN
            },
        ),
        fault(
            "losing any peer leads to seeking",
            Rules {
                lost_peer: |run| {
                    run.state.sync_peer = Some(run.inputs.peer);
                    steps::lost_peer(run)
                },
                ..PLAIN
            },
        ),
        fault(
            "a lost peer's ids are asked of the first other peer",
            Rules {
                lost_peer: |run| {
                    let lost = run.inputs.peer;
                    run.inputs.peers.retain(|peer| *peer != lost);
                    steps::lost_peer(run)
                },
                ..PLAIN
            },
        ),
        fault(
            "a failed entry purges the peer's ids",
            Rules {
                send_failure: |run| {
                    delivery::purge_peer(run, sync_peer(run));
                    steps::send_failure(run)
                },
                ..PLAIN
            },
        ),
        fault(
            "a failed entry counts the peer as stalled",
            Rules {
                send_failure: |run| {
                    steps::join_stalled(run);
                    steps::send_failure(run)
                },
                ..PLAIN
            },
        ),
        fault(
            "a failed entry is not counted as sent",
            Rules {
                send_failure: |run| {
                    run.state.sends_counted = run.state.sends_counted.wrapping_sub(1);
                    steps::send_failure(run)
                },
                ..PLAIN
            },
        ),
        fault(
            "the end of the stream in seeking empties the stalled set",
            Rules {
                end_of_stream: |run| {
                    if run.state.mode == Mode::Seeking {
                        run.state.stalled.clear();
                    }
                    steps::end_of_stream(run)
                },
                ..PLAIN
            },
        ),
        fault(
            "the end of the stream purges what is pending",
            Rules {
                end_of_stream: |run| {
                    delivery::purge_all(run);
                    steps::end_of_stream(run)
                },
                ..PLAIN
            },
        ),
        fault(
            "received ids run no rule 5",
            Rules {
                received: |run| {
                    let ids = run.inputs.ids.clone();
                    delivery::mark_received(run, &ids);
                    Ok(outcomes::CONTINUE)
                },
                ..PLAIN
            },
        ),
        fault(
            "evicted ids run rule 5",
            Rules {
                evicted: |run| {
                    steps::evicted(run)?;
                    sync::advance_downloaded_height(run)?;
                    Ok(outcomes::CONTINUE)
                },
                ..PLAIN
            },
        ),
    ]
}
