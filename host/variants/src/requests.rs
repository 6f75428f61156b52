//! Faults in rules 1 to 3.

use crate::{variant, Variant};
use keeper_reference::sync::{self, Stored};
use keeper_reference::{delivery, Rules, PLAIN};

pub fn variants() -> Vec<Variant> {
    let mut all = peers_and_sends();
    all.extend(requests());
    all
}

fn peers_and_sends() -> Vec<Variant> {
    vec![
        variant(
            "rule 1",
            "an empty list leaves the stalled set",
            Rules {
                select_peer: |state, peers| {
                    if peers.is_empty() {
                        return None;
                    }
                    sync::select_peer(state, peers)
                },
                ..PLAIN
            },
        ),
        variant(
            "rule 1",
            "chooses nobody when all are stalled",
            Rules {
                select_peer: |state, peers| {
                    let free = peers.iter().any(|peer| !state.stalled.contains(peer));
                    let chosen = sync::select_peer(state, peers);
                    chosen.filter(|_| free)
                },
                ..PLAIN
            },
        ),
        variant(
            "rule 1",
            "takes the first listed peer, stalled or not",
            Rules {
                select_peer: |_, peers| peers.first().copied(),
                ..PLAIN
            },
        ),
        variant(
            "rule 2",
            "nothing is sent at exactly the interval",
            Rules {
                throttled: |state, clock| {
                    clock - state.last_send <= u64::from(state.settings.min_sync_send_interval)
                },
                ..PLAIN
            },
        ),
        variant(
            "rule 2",
            "never throttled",
            Rules {
                throttled: |_, _| false,
                ..PLAIN
            },
        ),
        variant(
            "rule 2",
            "a throttled send moves the last send",
            Rules {
                send_sync_info: |run, peer| {
                    let sent = sync::send_sync_info(run, peer);
                    run.state.last_send = run.inputs.clock;
                    sent
                },
                ..PLAIN
            },
        ),
        variant(
            "rule 2",
            "a throttled send is counted",
            Rules {
                send_sync_info: |run, peer| {
                    let sent = sync::send_sync_info(run, peer);
                    if !sent {
                        run.state.sends_counted = run.state.sends_counted.wrapping_add(1);
                    }
                    sent
                },
                ..PLAIN
            },
        ),
        variant(
            "rule 2",
            "sends counted stop at 2^32 - 1",
            Rules {
                send_sync_info: |run, peer| {
                    let counted = run.state.sends_counted;
                    let sent = sync::send_sync_info(run, peer);
                    if sent {
                        run.state.sends_counted = counted.saturating_add(1);
                    }
                    sent
                },
                ..PLAIN
            },
        ),
    ]
}

fn requests() -> Vec<Variant> {
    let fault = |fault, rules| variant("rule 3", fault, rules);
    vec![
        fault(
            "marks behind a shut gate",
            Rules {
                request_announced: |run, peer, type_id, ids, stored| {
                    if run.inputs.gate {
                        return sync::request_announced(run, peer, type_id, ids, stored);
                    }
                    let needed = sync::needed(run, type_id, ids, stored);
                    delivery::mark_requested(run, &needed, peer, type_id);
                },
                ..PLAIN
            },
        ),
        fault(
            "sends behind a shut gate",
            Rules {
                request_announced: |run, peer, type_id, ids, stored| {
                    let gate = std::mem::replace(&mut run.inputs.gate, true);
                    sync::request_announced(run, peer, type_id, ids, stored);
                    run.inputs.gate = gate;
                },
                ..PLAIN
            },
        ),
        fault(
            "asks again for an id pending under another type",
            Rules {
                needed: |run, type_id, ids, stored| {
                    let mut seen = run.state.clone();
                    seen.pending.retain(|_, request| request.type_id == type_id);
                    let known = |id| {
                        stored == Stored::ByPairs && run.inputs.stored.contains(&(type_id, id))
                    };
                    let kept = |id: &_| !seen.pending.contains_key(id) && !known(*id);
                    ids.iter().copied().filter(kept).collect()
                },
                ..PLAIN
            },
        ),
        fault(
            "sends an id that stands twice in a list once",
            Rules {
                needed: |run, type_id, ids, stored| {
                    let mut once = Vec::new();
                    for id in sync::needed(run, type_id, ids, stored) {
                        if !once.contains(&id) {
                            once.push(id);
                        }
                    }
                    once
                },
                ..PLAIN
            },
        ),
        fault(
            "sends the ids of a list in rising order",
            Rules {
                needed: |run, type_id, ids, stored| {
                    let mut needed = sync::needed(run, type_id, ids, stored);
                    needed.sort_unstable();
                    needed
                },
                ..PLAIN
            },
        ),
        fault(
            "takes an id stored under any type for stored",
            Rules {
                needed: |run, type_id, ids, stored| {
                    let mut needed = sync::needed(run, type_id, ids, stored);
                    if stored == Stored::ByPairs {
                        needed.retain(|id| !run.inputs.stored.iter().any(|pair| pair.1 == *id));
                    }
                    needed
                },
                ..PLAIN
            },
        ),
        fault(
            "asks for stored ids",
            Rules {
                needed: |run, type_id, ids, _| sync::needed(run, type_id, ids, Stored::ByPlaces),
                ..PLAIN
            },
        ),
        fault(
            "asks for pending ids again",
            Rules {
                needed: |run, type_id, ids, stored| {
                    let known = |id| {
                        stored == Stored::ByPairs && run.inputs.stored.contains(&(type_id, id))
                    };
                    ids.iter().copied().filter(|id| !known(*id)).collect()
                },
                ..PLAIN
            },
        ),
        fault(
            "puts 401 ids into a request",
            Rules {
                runs: |ids| ids.chunks(401).collect(),
                ..PLAIN
            },
        ),
        fault(
            "puts 399 ids into a request",
            Rules {
                runs: |ids| ids.chunks(399).collect(),
                ..PLAIN
            },
        ),
        fault(
            "a list with nothing left takes a batch number",
            Rules {
                request_announced: |run, peer, type_id, ids, stored| {
                    let before = run.commands.batches;
                    sync::request_announced(run, peer, type_id, ids, stored);
                    if run.inputs.gate && run.commands.batches == before {
                        run.commands.batches += 1;
                    }
                },
                ..PLAIN
            },
        ),
    ]
}
