//! state.rs, rules 1 to 6 (document 01, and F-8 of document 02).

use crate::delivery::Retry;
use crate::{Refusal, Run};
use keeper_values::numbers::{limits, types};
use keeper_values::{Id, Place, Row, State, TypeId};
use std::collections::BTreeMap;

/// By what rule 3 knows a stored id.
#[derive(Debug, Clone, Copy, PartialEq, Eq)]
pub enum Stored {
    ByPairs,
    /// Rule 4 has left out what its places' own flags say.
    ByPlaces,
}

/// Rule 1: the first listed peer not stalled. "If none, the stalled set is emptied, even for an empty list, and the
/// first listed is taken."
pub fn select_peer(state: &mut State, peers: &[u64]) -> Option<u64> {
    if let Some(peer) = peers.iter().find(|peer| !state.stalled.contains(peer)) {
        return Some(*peer);
    }
    state.stalled.clear();
    peers.first().copied()
}

/// Rule 2: "below `min_sync_send_interval` since the last send, nothing".
pub fn throttled(state: &State, clock: u64) -> bool {
    clock - state.last_send < u64::from(state.settings.min_sync_send_interval)
}

/// Rule 2; whether it sent.
pub fn send_sync_info(run: &mut Run, peer: u64) -> bool {
    if (run.rules.throttled)(&run.state, run.inputs.clock) {
        return false;
    }
    run.state.last_send = run.inputs.clock;
    run.state.sends_counted = run.state.sends_counted.wrapping_add(1);
    run.commands.sync_info(peer);
    true
}

/// Rule 3: "Drop ids pending before the call, then stored ones."
pub fn needed(run: &Run, type_id: TypeId, ids: &[Id], stored: Stored) -> Vec<Id> {
    let kept = |id: &&Id| {
        let known = stored == Stored::ByPairs && run.inputs.stored.contains(&(type_id, **id));
        !run.state.pending.contains_key(*id) && !known
    };
    ids.iter().filter(kept).copied().collect()
}

/// Rule 3: "Mark the rest, then send".
pub fn request_announced(run: &mut Run, peer: u64, type_id: TypeId, ids: &[Id], stored: Stored) {
    if !run.inputs.gate {
        return;
    }
    let needed = (run.rules.needed)(run, type_id, ids, stored);
    if needed.is_empty() {
        return;
    }
    (run.rules.mark_requested)(run, &needed, peer, type_id);
    (run.rules.requests)(run, peer, type_id, &needed);
}

/// Rule 4: the window's last height, "min(downloaded + 192, chain height)", the sum exact.
pub fn window_end(downloaded: u32, height: u32) -> u32 {
    height.min(downloaded.saturating_add(limits::WINDOW))
}

/// Rule 4: the places to ask for, from downloaded + 1 "up to the first absent header", by type.
pub fn window(run: &Run) -> Result<BTreeMap<TypeId, Vec<Id>>, Refusal> {
    let end = (run.rules.window_end)(run.state.downloaded, run.inputs.height);
    let mut missing = BTreeMap::<TypeId, Vec<Id>>::new();
    let mut height = run.state.downloaded;
    while height < end {
        height += 1;
        let Row::Present(places) = run.read(height)? else {
            break;
        };
        for place in places.iter().filter(|place| !place.stored) {
            missing.entry(place.type_id).or_default().push(place.id);
        }
    }
    Ok(missing)
}

/// Rule 4.
pub fn request_next_sections(run: &mut Run) -> Result<(), Refusal> {
    let Some(peer) = run.first_peer() else {
        return Ok(());
    };
    for (type_id, ids) in (run.rules.window)(run)? {
        (run.rules.request_announced)(run, peer, type_id, &ids, Stored::ByPlaces);
    }
    Ok(())
}

/// Rule 5: a height "whose header is present and whose sections are all stored".
pub fn complete(row: &Row) -> bool {
    match row {
        Row::Absent => false,
        Row::Present(places) => places.iter().all(|place: &Place| place.stored),
    }
}

/// Rule 5.
pub fn advance_downloaded_height(run: &mut Run) -> Result<(), Refusal> {
    while run.state.downloaded < run.inputs.height {
        let next = run.state.downloaded + 1;
        if !(run.rules.complete)(&run.read(next)?) {
            break;
        }
        run.state.downloaded = next;
    }
    Ok(())
}

/// F-8: "Take the first listed peer neither failed nor stalled; else the first listed peer other than the failed one; else
/// the failed one."
pub fn retry_target(stalled: &[u64], peers: &[u64], failed: u64) -> u64 {
    let others = || peers.iter().filter(|peer| **peer != failed);
    let unstalled = others().find(|peer| !stalled.contains(peer));
    let target = unstalled.or_else(|| others().next());
    target.copied().unwrap_or(failed)
}

/// F-2, which F-8 overrules: "Consider the listed peers not stalled, or all listed ones when every one is stalled."
fn considered(stalled: &[u64], peers: &[u64]) -> Vec<u64> {
    let unstalled = peers.iter().filter(|peer| !stalled.contains(peer));
    let unstalled: Vec<u64> = unstalled.copied().collect();
    if unstalled.is_empty() {
        return peers.to_vec();
    }
    unstalled
}

/// F-2: "Take the first of these other than the failed peer; if there is none, the failed peer." To be compared with.
pub fn former_target(stalled: &[u64], peers: &[u64], failed: u64) -> u64 {
    let considered = considered(stalled, peers);
    let other = considered.iter().find(|peer| **peer != failed);
    other.copied().unwrap_or(failed)
}

/// Rule 6: "Batches go by target, then type", the whole of it.
pub fn retry_batches(run: &Run, retries: &[Retry]) -> Vec<(u64, TypeId, Vec<Id>)> {
    let mut batches = BTreeMap::<(u64, TypeId), Vec<Id>>::new();
    for retry in retries {
        let (stalled, peers) = (&run.state.stalled, &run.inputs.peers);
        let target = (run.rules.retry_target)(stalled, peers, retry.failed_peer);
        let batch = batches.entry((target, retry.type_id)).or_default();
        batch.push(retry.id);
    }
    let batch = |((target, type_id), ids)| (target, type_id, ids);
    batches.into_iter().map(batch).collect()
}

/// Rule 6, retries. "Gate shut: clocks and checks still move, peer and sends don't."
pub fn send_retries(run: &mut Run, retries: &[Retry]) {
    if !run.inputs.gate {
        return;
    }
    for (target, type_id, ids) in (run.rules.retry_batches)(run, retries) {
        (run.rules.mark_retried)(run, &ids, target);
        (run.rules.requests)(run, target, type_id, &ids);
    }
}

/// Rule 6, fresh ids: "as headers to the first listed peer through rule 3. No peer or a shut gate loses them."
pub fn send_fresh(run: &mut Run, fresh: &[Id]) {
    if let Some(peer) = run.first_peer() {
        (run.rules.request_announced)(run, peer, types::HEADER, fresh, Stored::ByPairs);
    }
}

/// Rule 6.
pub fn handle_delivery_check(run: &mut Run) {
    let check = (run.rules.check_timeouts)(run);
    run.counts = [
        check.retries.len() as u32,
        check.fresh.len() as u32,
        check.abandoned,
        check.forgotten,
    ];
    (run.rules.send_retries)(run, &check.retries);
    (run.rules.send_fresh)(run, &check.fresh);
}
