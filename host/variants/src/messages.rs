//! Faults in rule 7.

use crate::{variant, Variant};
use keeper_reference::steps::{self, sync_peer};
use keeper_reference::sync::{self, Stored};
use keeper_reference::{Rules, Run, PLAIN};
use keeper_values::numbers::widths::HEADER;
use keeper_values::numbers::{outcomes, types};
use keeper_values::TypeId;

/// Announced ids are asked for, but not those of a type.
fn announced_but(run: &mut Run, type_id: TypeId) -> steps::Outcome {
    if run.inputs.type_id == type_id {
        return Ok(outcomes::CONTINUE);
    }
    steps::announced(run)
}

pub fn variants() -> Vec<Variant> {
    let fault = |fault, rules| variant("rule 7", fault, rules);
    vec![
        fault(
            "announced ids are asked of the sync peer",
            Rules {
                announced: |run| {
                    run.inputs.peer = sync_peer(run);
                    steps::announced(run)
                },
                ..PLAIN
            },
        ),
        fault(
            "an empty list of any type is one of headers",
            Rules {
                announced: |run| {
                    if run.inputs.ids.is_empty() {
                        return steps::empty_headers(run);
                    }
                    steps::announced(run)
                },
                ..PLAIN
            },
        ),
        fault(
            "ids of an unknown type are asked for",
            Rules {
                announced: |run| {
                    if run.inputs.type_id == types::HEADER {
                        return steps::announced(run);
                    }
                    let ids = run.inputs.ids.clone();
                    let (peer, type_id) = (run.inputs.peer, run.inputs.type_id);
                    sync::request_announced(run, peer, type_id, &ids, Stored::ByPairs);
                    Ok(outcomes::CONTINUE)
                },
                ..PLAIN
            },
        ),
        fault(
            "announced transactions are passed over",
            Rules {
                announced: |run| announced_but(run, types::TRANSACTION),
                ..PLAIN
            },
        ),
        fault(
            "announced block transactions are passed over",
            Rules {
                announced: |run| announced_but(run, types::BLOCK_TRANSACTIONS),
                ..PLAIN
            },
        ),
        fault(
            "announced AD proofs are passed over",
            Rules {
                announced: |run| announced_but(run, types::AD_PROOFS),
                ..PLAIN
            },
        ),
        fault(
            "announced extensions are passed over",
            Rules {
                announced: |run| announced_but(run, types::EXTENSION),
                ..PLAIN
            },
        ),
        fault(
            "a peer one block ahead is a reason to switch",
            Rules {
                judge_tip: |from_sync_peer, tip, ours| {
                    if tip > ours {
                        outcomes::BEHIND_PEER
                    } else {
                        steps::judge_tip(from_sync_peer, tip, ours)
                    }
                },
                ..PLAIN
            },
        ),
        fault(
            "a peer two blocks ahead is none",
            Rules {
                judge_tip: |from_sync_peer, tip, ours| {
                    let outcome = steps::judge_tip(from_sync_peer, tip, ours);
                    if u64::from(tip) == u64::from(ours) + 2 {
                        outcomes::CONTINUE
                    } else {
                        outcome
                    }
                },
                ..PLAIN
            },
        ),
        fault(
            "any peer at our height is Synced",
            Rules {
                judge_tip: |_, tip, ours| steps::judge_tip(true, tip, ours),
                ..PLAIN
            },
        ),
        fault(
            "Synced only below our height",
            Rules {
                judge_tip: |from_sync_peer, tip, ours| {
                    steps::judge_tip(from_sync_peer && tip != ours, tip, ours)
                },
                ..PLAIN
            },
        ),
        fault(
            "only the sync peer can be ahead",
            Rules {
                judge_tip: |from_sync_peer, tip, ours| {
                    if from_sync_peer {
                        steps::judge_tip(true, tip, ours)
                    } else {
                        outcomes::CONTINUE
                    }
                },
                ..PLAIN
            },
        ),
        fault(
            "ours + 1 wraps",
            Rules {
                judge_tip: |from_sync_peer, tip, ours| {
                    if from_sync_peer && tip <= ours {
                        outcomes::SYNCED
                    } else if tip > ours.wrapping_add(1) {
                        outcomes::BEHIND_PEER
                    } else {
                        outcomes::CONTINUE
                    }
                },
                ..PLAIN
            },
        ),
        fault(
            "the known tip falls with a peer's",
            Rules {
                sync_info: |run| {
                    let tip = run.inputs.tip.filter(|_| run.inputs.parsed);
                    let outcome = steps::sync_info(run)?;
                    run.state.known_tip = tip.unwrap_or(run.state.known_tip);
                    Ok(outcome)
                },
                ..PLAIN
            },
        ),
        fault(
            "the known tip stays",
            Rules {
                sync_info: |run| {
                    let known = run.state.known_tip;
                    let outcome = steps::sync_info(run)?;
                    run.state.known_tip = known;
                    Ok(outcome)
                },
                ..PLAIN
            },
        ),
        fault(
            "the reply goes to the sync peer",
            Rules {
                sync_info: |run| {
                    let asked = run.state.sync_peer;
                    let sender = run.inputs.peer;
                    let outcome = steps::sync_info(run)?;
                    let end = run.commands.bytes.len();
                    if outcome == outcomes::CONTINUE && end >= HEADER {
                        let reply = &mut run.commands.bytes[end - HEADER..];
                        if reply[0] == 3 && asked != Some(sender) {
                            reply[5..13].copy_from_slice(&asked.unwrap_or(0).to_be_bytes());
                        }
                    }
                    Ok(outcome)
                },
                ..PLAIN
            },
        ),
        fault(
            "no reply when parsing failed",
            Rules {
                sync_info: |run| {
                    if run.inputs.parsed {
                        steps::sync_info(run)
                    } else {
                        Ok(outcomes::CONTINUE)
                    }
                },
                ..PLAIN
            },
        ),
        fault(
            "the tip is read when parsing failed",
            Rules {
                sync_info: |run| {
                    run.inputs.parsed = true;
                    steps::sync_info(run)
                },
                ..PLAIN
            },
        ),
        fault(
            "the reply comes before the announcement",
            Rules {
                sync_info: |run| {
                    let outcome = steps::sync_info(run)?;
                    let bytes = &mut run.commands.bytes;
                    if outcome == outcomes::CONTINUE && run.commands.batches == 2 {
                        bytes.rotate_right(HEADER);
                        bytes[4] = 0;
                        bytes[HEADER + 4] = 1;
                    }
                    Ok(outcome)
                },
                ..PLAIN
            },
        ),
        fault(
            "a peer ahead of us is served too",
            Rules {
                announces: |_, ours| ours > 0,
                ..PLAIN
            },
        ),
        fault(
            "an empty chain is served",
            Rules {
                announces: |tip, ours| tip.is_none_or(|tip| tip <= ours),
                ..PLAIN
            },
        ),
        fault(
            "a peer without a tip is not served",
            Rules {
                announces: |tip, ours| ours > 0 && tip.is_some_and(|tip| tip <= ours),
                ..PLAIN
            },
        ),
        fault(
            "a peer at our height is not served",
            Rules {
                announces: |tip, ours| ours > 0 && tip.is_none_or(|tip| tip < ours),
                ..PLAIN
            },
        ),
    ]
}
