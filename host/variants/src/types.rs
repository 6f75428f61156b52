//! Faults in types of two bytes (F-6).

use crate::{variant, Variant, TYPES};
use keeper_reference::steps::{self, is_sync_peer, seek};
use keeper_reference::sync::{self, Stored};
use keeper_reference::{commands, delivery, entries, image, inputs, Rules, Run, PLAIN};
use keeper_values::numbers::widths::{PAIR, RECORD};
use keeper_values::numbers::{outcomes, types};
use keeper_values::{Id, Mode, TypeId};
use std::collections::BTreeMap;

/// The place of a type's high byte in a record.
pub(crate) const HIGH: usize = 40;

fn low(type_id: TypeId) -> TypeId {
    type_id & 255
}

fn fault(fault: &'static str, rules: Rules) -> Variant {
    variant(TYPES, fault, rules)
}

pub(crate) fn records(area: &[u8]) -> impl Iterator<Item = &[u8]> {
    let count = usize::from(u16::from_be_bytes([area[70], area[71]]));
    area[2_560..2_560 + RECORD * count].chunks_exact(RECORD)
}

/// Asks for lists of ids in the order of their types' low bytes.
fn by_low_byte(run: &mut Run, peer: u64, lists: Vec<(TypeId, Vec<Id>)>, stored: Stored) {
    let mut lists = lists;
    lists.sort_by_key(|(type_id, _)| type_id.swap_bytes());
    for (type_id, ids) in lists {
        sync::request_announced(run, peer, type_id, &ids, stored);
    }
}

pub fn variants() -> Vec<Variant> {
    [cut(), transactions(), orders()].concat()
}

/// A type cut to its low byte.
fn cut() -> Vec<Variant> {
    vec![
        fault(
            "an announced type is cut to its low byte",
            Rules {
                announced: |run| {
                    run.inputs.type_id = low(run.inputs.type_id);
                    steps::announced(run)
                },
                ..PLAIN
            },
        ),
        fault(
            "an announced type is known by its low byte",
            Rules {
                announced: |run| {
                    let (peer, type_id) = (run.inputs.peer, run.inputs.type_id);
                    if type_id == low(type_id) || !types::KNOWN.contains(&low(type_id)) {
                        return steps::announced(run);
                    }
                    let ids = run.inputs.ids.clone();
                    sync::request_announced(run, peer, type_id, &ids, Stored::ByPairs);
                    Ok(outcomes::CONTINUE)
                },
                ..PLAIN
            },
        ),
        fault(
            "a stored pair counts for each type with its low byte",
            Rules {
                needed: |run, type_id, ids, stored| {
                    let mut needed = sync::needed(run, type_id, ids, stored);
                    if stored == Stored::ByPairs {
                        let pairs = run.inputs.stored.iter();
                        let same_low = pairs.filter(|pair| low(pair.0) == low(type_id));
                        let known: Vec<Id> = same_low.map(|pair| pair.1).collect();
                        needed.retain(|id| !known.contains(id));
                    }
                    needed
                },
                ..PLAIN
            },
        ),
        fault(
            "stored pairs are held to rise by the low bytes of their types",
            Rules {
                stored_fits: |pairs| {
                    let mut pairs = pairs.to_vec();
                    for pair in pairs.chunks_mut(PAIR) {
                        pair[0] = 0;
                    }
                    inputs::stored_fits(&pairs)
                },
                ..PLAIN
            },
        ),
        fault(
            "a section's type is cut to its low byte",
            Rules {
                window: |run| {
                    let mut missing = BTreeMap::<TypeId, Vec<Id>>::new();
                    for (type_id, ids) in sync::window(run)? {
                        missing.entry(low(type_id)).or_default().extend(ids);
                    }
                    Ok(missing)
                },
                ..PLAIN
            },
        ),
        fault(
            "retries of types with the same low byte go in one batch",
            Rules {
                retry_batches: |run, retries| {
                    let mut retries = retries.to_vec();
                    for retry in &mut retries {
                        retry.type_id = low(retry.type_id);
                    }
                    sync::retry_batches(run, &retries)
                },
                ..PLAIN
            },
        ),
        fault(
            "a request has its type's low byte alone",
            Rules {
                requests: |run, peer, type_id, ids| {
                    commands::requests(run, peer, low(type_id), ids);
                },
                ..PLAIN
            },
        ),
        fault(
            "what is pending keeps its type's low byte alone",
            Rules {
                mark_requested: |run, ids, peer, type_id| {
                    delivery::mark_requested(run, ids, peer, low(type_id));
                },
                ..PLAIN
            },
        ),
        fault(
            "the question's pairs have their types' low bytes alone",
            Rules {
                pairs: |state, flag| {
                    let pairs = entries::pairs(state, flag).into_iter();
                    pairs.map(|(type_id, id)| (low(type_id), id)).collect()
                },
                ..PLAIN
            },
        ),
    ]
}

/// A type that ends in a transaction's low byte, taken for one.
fn transactions() -> Vec<Variant> {
    vec![
        fault(
            "a type that ends in 2 is forgotten",
            Rules {
                forgotten_when_undelivered: |type_id| low(type_id) == types::TRANSACTION,
                ..PLAIN
            },
        ),
        fault(
            "a lost peer's ids of a type that ends in 2 are not asked for again",
            Rules {
                purge_peer: |run, peer| {
                    let mut orphans = delivery::purge_peer(run, peer);
                    orphans.retain(|type_id, _| low(*type_id) != types::TRANSACTION);
                    orphans
                },
                ..PLAIN
            },
        ),
        fault(
            "the question leaves out types that end in 2",
            Rules {
                pairs: |state, flag| {
                    let mut pairs = entries::pairs(state, flag);
                    pairs.retain(|(type_id, _)| low(*type_id) != types::TRANSACTION);
                    pairs
                },
                ..PLAIN
            },
        ),
        fault(
            "a type that ends in 2 is malformed with a check",
            Rules {
                checks_fit: |area| {
                    let ends_in_2 = |record: &&[u8]| TypeId::from(record[HIGH + 1]) == 2;
                    let mut checked = records(area).filter(ends_in_2);
                    image::checks_fit(area) && checked.all(|record| record[50..] == [0; 4])
                },
                ..PLAIN
            },
        ),
    ]
}

fn orders() -> Vec<Variant> {
    vec![
        fault(
            "retry batches go by a type's low byte first",
            Rules {
                retry_batches: |run, retries| {
                    let mut batches = sync::retry_batches(run, retries);
                    batches.sort_by_key(|(target, type_id, _)| (*target, type_id.swap_bytes()));
                    batches
                },
                ..PLAIN
            },
        ),
        fault(
            "a lost peer's ids go by a type's low byte first",
            Rules {
                lost_peer: |run| {
                    let peer = run.inputs.peer;
                    let first = run.first_peer();
                    let Some(first) = first.filter(|_| is_sync_peer(run)) else {
                        return steps::lost_peer(run);
                    };
                    if run.state.mode == Mode::Syncing {
                        let orphans = delivery::purge_peer(run, peer).into_iter().collect();
                        by_low_byte(run, first, orphans, Stored::ByPairs);
                    }
                    seek(run);
                    Ok(outcomes::PEER_GONE)
                },
                ..PLAIN
            },
        ),
        fault(
            "a window's types go by their low byte first",
            Rules {
                request_next_sections: |run| {
                    if let Some(peer) = run.first_peer() {
                        let missing = sync::window(run)?.into_iter().collect();
                        by_low_byte(run, peer, missing, Stored::ByPlaces);
                    }
                    Ok(())
                },
                ..PLAIN
            },
        ),
    ]
}
