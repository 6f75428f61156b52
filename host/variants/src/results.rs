//! Faults in refusals 10 and 11, in opening and in the question.

use crate::{variant, Variant};
use keeper_reference::entries::Before;
use keeper_reference::{entries, steps, Refusal, Rules, PLAIN};
use keeper_values::numbers::{kinds, types};
use keeper_values::State;

pub fn variants() -> Vec<Variant> {
    let mut all = results();
    all.extend(questions());
    all
}

/// 10 by what was pending before a step of this kind, in place of what is pending after it.
fn judged_before(kind: u8, before: &Before, state: &State) -> Result<(), Refusal> {
    if before.kind != kind {
        return entries::result_fits(before, state);
    }
    if before.pending + state.evicted.len() > 1_024 {
        return Err(Refusal(10));
    }
    Ok(())
}

fn results() -> Vec<Variant> {
    vec![
        variant(
            "refusal 10",
            "1,024 together are refused",
            Rules {
                result_fits: |before, state| match entries::result_fits(before, state) {
                    Ok(()) if state.pending.len() + state.evicted.len() == 1_024 => {
                        Err(Refusal(10))
                    }
                    other => other,
                },
                ..PLAIN
            },
        ),
        variant(
            "refusal 10",
            "pending alone is held to 1,024",
            Rules {
                result_fits: |_, state| {
                    if state.pending.len() > 1_024 {
                        return Err(Refusal(10));
                    }
                    if state.stalled.len() > 256 {
                        return Err(Refusal(11));
                    }
                    Ok(())
                },
                ..PLAIN
            },
        ),
        variant(
            "refusal 10",
            "in an eviction it is judged on what was pending before",
            Rules {
                result_fits: |before, state| judged_before(kinds::EVICTED, before, state),
                ..PLAIN
            },
        ),
        variant(
            "refusal 10",
            "in rule 3 it is judged on what was pending before",
            Rules {
                result_fits: |before, state| judged_before(kinds::ANNOUNCED, before, state),
                ..PLAIN
            },
        ),
        variant(
            "refusal 10",
            "in a reorg it is judged on what was pending before",
            Rules {
                result_fits: |before, state| judged_before(kinds::REORG, before, state),
                ..PLAIN
            },
        ),
        variant(
            "refusal 11",
            "a 256th stalled peer is refused",
            Rules {
                result_fits: |before, state| match entries::result_fits(before, state) {
                    Ok(()) if state.stalled.len() == 256 => Err(Refusal(11)),
                    other => other,
                },
                ..PLAIN
            },
        ),
        variant(
            "refusal 11",
            "a 257th stalled peer is left out",
            Rules {
                join_stalled: |run| {
                    steps::join_stalled(run);
                    run.state.stalled.truncate(256);
                },
                ..PLAIN
            },
        ),
        variant(
            "opening",
            "the last send starts at 0",
            Rules {
                opened: |settings, clock, height| {
                    let mut state = entries::opened(settings, clock, height);
                    state.last_send = 0;
                    state
                },
                ..PLAIN
            },
        ),
        variant(
            "opening",
            "the start height becomes the known tip",
            Rules {
                opened: |settings, clock, height| {
                    let mut state = entries::opened(settings, clock, height);
                    state.known_tip = height;
                    state
                },
                ..PLAIN
            },
        ),
    ]
}

fn questions() -> Vec<Variant> {
    let fault = |fault, rules| variant("question", fault, rules);
    vec![
        fault(
            "evicted ids are given without a sync peer",
            Rules {
                pairs: |state, flag| {
                    let mut state = state.clone();
                    if flag == 0 {
                        state.sync_peer = Some(0);
                    }
                    entries::pairs(&state, flag)
                },
                ..PLAIN
            },
        ),
        fault(
            "transactions are given too",
            Rules {
                pairs: |state, flag| {
                    let mut pairs = entries::pairs(state, flag);
                    if let (Some(peer), 1) = (state.sync_peer, flag) {
                        let owed = state
                            .pending
                            .iter()
                            .filter(|(_, r)| r.peer == peer && r.type_id == types::TRANSACTION);
                        pairs.extend(owed.map(|(id, r)| (r.type_id, *id)));
                    }
                    pairs
                },
                ..PLAIN
            },
        ),
        fault(
            "ids pending from any peer are given",
            Rules {
                pairs: |state, flag| {
                    let mut state = state.clone();
                    for request in state.pending.values_mut() {
                        request.peer = state.sync_peer.unwrap_or(0);
                    }
                    entries::pairs(&state, flag)
                },
                ..PLAIN
            },
        ),
        fault(
            "the flags are exchanged",
            Rules {
                pairs: |state, flag| entries::pairs(state, 1 - flag),
                ..PLAIN
            },
        ),
    ]
}
