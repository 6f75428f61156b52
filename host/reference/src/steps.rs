//! state.rs, rules 7 to 9: what each step does in each mode (document 01; docs/LAYOUT.md for the kinds).

use crate::sync::Stored;
use crate::{Refusal, Run};
use keeper_values::numbers::{kinds, outcomes, types};
use keeper_values::Mode;

/// A finished step's outcome.
pub type Outcome = Result<u32, Refusal>;

/// "Steps by mode."
pub fn kind_fits(mode: Mode, kind: u8) -> bool {
    match kind {
        kinds::START => mode == Mode::New,
        kinds::PICK => mode == Mode::Seeking,
        kinds::NEEDED..=kinds::SCHEDULED_TICK => mode.has_sync_peer(),
        kinds::SECTION_TICK => mode == Mode::Synced,
        kinds::SEND_FAILURE => mode == Mode::Syncing,
        kinds::END_OF_STREAM => mode == Mode::Seeking || mode.has_sync_peer(),
        _ => false,
    }
}

/// Sorts a step by its kind.
pub fn step(run: &mut Run) -> Outcome {
    let rules = run.rules;
    match run.inputs.kind {
        kinds::START => (rules.start)(run),
        kinds::PICK => (rules.pick)(run),
        kinds::NEEDED => (rules.needed_modifier)(run),
        kinds::REORG => (rules.reorg)(run),
        kinds::ANNOUNCED => (rules.announced)(run),
        kinds::SYNC_INFO => (rules.sync_info)(run),
        kinds::LOST_PEER => (rules.lost_peer)(run),
        kinds::RECEIVED => (rules.received)(run),
        kinds::EVICTED => (rules.evicted)(run),
        kinds::PROGRESS => (rules.progress)(run),
        kinds::CHECK => (rules.check)(run),
        kinds::SCHEDULED_TICK => (rules.scheduled_tick)(run),
        kinds::SECTION_TICK => (rules.section_tick)(run),
        kinds::SEND_FAILURE => (rules.send_failure)(run),
        kinds::END_OF_STREAM => (rules.end_of_stream)(run),
        _ => Ok(outcomes::CONTINUE),
    }
}

/// The sync peer; the steps that ask have one.
pub fn sync_peer(run: &Run) -> u64 {
    run.state.sync_peer.unwrap_or(0)
}

/// Whether the peer of this call is the sync peer.
pub fn is_sync_peer(run: &Run) -> bool {
    run.state.sync_peer == Some(run.inputs.peer)
}

/// Leaves syncing or synced: no sync peer, no marks.
pub fn seek(run: &mut Run) {
    run.state.mode = Mode::Seeking;
    run.state.sync_peer = None;
    run.state.progress_mark = false;
}

/// Entry to syncing "sends by rule 2"; the entry mark remembers whether it sent.
pub fn enter_syncing(run: &mut Run, peer: u64) {
    run.state.mode = Mode::Syncing;
    run.state.sync_peer = Some(peer);
    run.state.progress_mark = false;
    run.state.entry_mark = (run.rules.send_sync_info)(run, peer);
}

/// "Entry to synced runs rule 4." In synced the mode stays and nothing is done.
pub fn reach_synced(run: &mut Run) -> Outcome {
    if run.state.mode == Mode::Syncing {
        run.state.mode = Mode::Synced;
        run.state.progress_mark = false;
        (run.rules.request_next_sections)(run)?;
    }
    Ok(outcomes::SYNCED)
}

/// "BehindPeer makes that peer the sync peer, empties the stalled set and enters syncing anew".
pub fn switch_peer(run: &mut Run) -> Outcome {
    run.state.stalled.clear();
    (run.rules.enter_syncing)(run, run.inputs.peer);
    Ok(outcomes::BEHIND_PEER)
}

pub fn start(run: &mut Run) -> Outcome {
    if run.inputs.height > 0 {
        (run.rules.advance_downloaded_height)(run)?;
    }
    run.state.mode = Mode::Seeking;
    Ok(outcomes::CONTINUE)
}

pub fn pick(run: &mut Run) -> Outcome {
    if let Some(peer) = (run.rules.select_peer)(&mut run.state, &run.inputs.peers) {
        run.state.last_progress = run.inputs.clock;
        run.state.sends_counted = 0;
        (run.rules.enter_syncing)(run, peer);
    }
    Ok(outcomes::CONTINUE)
}

/// Rule 8: "a needed modifier goes through rule 3 to the sync peer".
pub fn needed_modifier(run: &mut Run) -> Outcome {
    let ids = run.inputs.ids.clone();
    let type_id = run.inputs.type_id;
    (run.rules.request_announced)(run, sync_peer(run), type_id, &ids, Stored::ByPairs);
    Ok(outcomes::CONTINUE)
}

/// Rule 8: "downloaded falls to the fork point if above it, pending is purged, then rules 5 and 4".
pub fn reorg(run: &mut Run) -> Outcome {
    run.state.downloaded = run.state.downloaded.min(run.inputs.fork);
    (run.rules.purge_all)(run);
    (run.rules.advance_downloaded_height)(run)?;
    (run.rules.request_next_sections)(run)?;
    Ok(outcomes::CONTINUE)
}

/// F-5: "an empty header list from the sync peer gives Synced; from any other peer it gives Continue, with no reply".
pub fn empty_headers(run: &mut Run) -> Outcome {
    if is_sync_peer(run) {
        (run.rules.reach_synced)(run)
    } else {
        Ok(outcomes::CONTINUE)
    }
}

/// Rule 7, announced ids: rule 3, "to the sender"; an empty header list is F-5's.
pub fn announced(run: &mut Run) -> Outcome {
    match run.inputs.type_id {
        types::HEADER if run.inputs.ids.is_empty() => (run.rules.empty_headers)(run),
        types::TRANSACTION
        | types::HEADER
        | types::BLOCK_TRANSACTIONS
        | types::AD_PROOFS
        | types::EXTENSION => {
            let ids = run.inputs.ids.clone();
            let (peer, type_id) = (run.inputs.peer, run.inputs.type_id);
            (run.rules.request_announced)(run, peer, type_id, &ids, Stored::ByPairs);
            Ok(outcomes::CONTINUE)
        }
        _ => Ok(outcomes::CONTINUE),
    }
}

/// Rule 7: "sync peer with tip <= ours: Synced; else tip > ours + 1: BehindPeer; else Continue", the sum exact.
pub fn judge_tip(from_sync_peer: bool, tip: u32, ours: u32) -> u32 {
    if from_sync_peer && tip <= ours {
        outcomes::SYNCED
    } else if u64::from(tip) > u64::from(ours) + 1 {
        outcomes::BEHIND_PEER
    } else {
        outcomes::CONTINUE
    }
}

/// Rule 7: whether the continuation ids are announced to the sender.
pub fn announces(tip: Option<u32>, ours: u32) -> bool {
    ours > 0 && tip.is_none_or(|tip| tip <= ours)
}

/// Rule 7, sync info.
pub fn sync_info(run: &mut Run) -> Outcome {
    let (peer, ours) = (run.inputs.peer, run.inputs.height);
    let mut outcome = outcomes::CONTINUE;
    if run.inputs.parsed {
        if let Some(tip) = run.inputs.tip {
            run.state.known_tip = run.state.known_tip.max(tip);
            outcome = (run.rules.judge_tip)(is_sync_peer(run), tip, ours);
        }
        let ids = &run.inputs.continuation;
        if (run.rules.announces)(run.inputs.tip, ours) && !ids.is_empty() {
            run.commands.announcement(peer, types::HEADER, ids);
        }
    }
    match outcome {
        outcomes::SYNCED => (run.rules.reach_synced)(run),
        outcomes::BEHIND_PEER => (run.rules.switch_peer)(run),
        _ => {
            (run.rules.send_sync_info)(run, peer);
            Ok(outcomes::CONTINUE)
        }
    }
}

/// Rule 9: "Losing the sync peer re-requests its ids (rule 3, types rising, first listed peer) in syncing only".
pub fn lost_peer(run: &mut Run) -> Outcome {
    if !is_sync_peer(run) {
        return Ok(outcomes::CONTINUE);
    }
    if run.state.mode == Mode::Syncing {
        for (type_id, ids) in (run.rules.purge_peer)(run, run.inputs.peer) {
            if let Some(peer) = run.first_peer() {
                (run.rules.request_announced)(run, peer, type_id, &ids, Stored::ByPairs);
            }
        }
    }
    seek(run);
    Ok(outcomes::PEER_GONE)
}

/// "removed from pending, then rule 5"
pub fn received(run: &mut Run) -> Outcome {
    let ids = run.inputs.ids.clone();
    (run.rules.mark_received)(run, &ids);
    (run.rules.advance_downloaded_height)(run)?;
    Ok(outcomes::CONTINUE)
}

pub fn evicted(run: &mut Run) -> Outcome {
    let ids = run.inputs.ids.clone();
    (run.rules.schedule_rerequest)(run, &ids);
    Ok(outcomes::CONTINUE)
}

/// "Progress runs rule 4; in syncing it first sets last progress to the clock and empties the stalled set, and
/// afterwards tries to send, but not again before the next entry or scheduled tick."
pub fn progress(run: &mut Run) -> Outcome {
    let syncing = run.state.mode == Mode::Syncing;
    if syncing {
        run.state.last_progress = run.inputs.clock;
        run.state.stalled.clear();
    }
    (run.rules.request_next_sections)(run)?;
    if syncing && !run.state.progress_mark {
        run.state.progress_mark = true;
        (run.rules.send_sync_info)(run, sync_peer(run));
    }
    Ok(outcomes::CONTINUE)
}

/// "A check in syncing also runs rule 5, in synced not."
pub fn check(run: &mut Run) -> Outcome {
    (run.rules.handle_delivery_check)(run);
    if run.state.mode == Mode::Syncing {
        (run.rules.advance_downloaded_height)(run)?;
    }
    Ok(outcomes::CONTINUE)
}

/// "Stalled if clock − last progress is strictly above `stall_timeout`"
pub fn stalled(run: &Run) -> bool {
    run.inputs.clock - run.state.last_progress > u64::from(run.state.settings.stall_timeout)
}

/// "the stalled peer joins the set", once.
pub fn join_stalled(run: &mut Run) {
    let peer = sync_peer(run);
    if !run.state.stalled.contains(&peer) {
        run.state.stalled.push(peer);
    }
}

pub fn scheduled_tick(run: &mut Run) -> Outcome {
    if run.state.mode == Mode::Syncing {
        (run.rules.tick_syncing)(run)
    } else {
        (run.rules.tick_synced)(run)
    }
}

pub fn tick_syncing(run: &mut Run) -> Outcome {
    (run.rules.send_sync_info)(run, sync_peer(run));
    run.state.progress_mark = false;
    if !(run.rules.stalled)(run) {
        return Ok(outcomes::CONTINUE);
    }
    (run.rules.join_stalled)(run);
    seek(run);
    Ok(outcomes::STALLED)
}

pub fn tick_synced(run: &mut Run) -> Outcome {
    let Some(peer) = run.first_peer() else {
        seek(run);
        return Ok(outcomes::PEER_GONE);
    };
    (run.rules.send_sync_info)(run, peer);
    (run.rules.advance_downloaded_height)(run)?;
    Ok(outcomes::CONTINUE)
}

/// "section tick (rules 5 and 4)"
pub fn section_tick(run: &mut Run) -> Outcome {
    (run.rules.advance_downloaded_height)(run)?;
    (run.rules.request_next_sections)(run)?;
    Ok(outcomes::CONTINUE)
}

pub fn send_failure(run: &mut Run) -> Outcome {
    seek(run);
    Ok(outcomes::PEER_GONE)
}

pub fn end_of_stream(run: &mut Run) -> Outcome {
    if run.state.mode == Mode::Seeking {
        run.state.mode = Mode::Ended;
    } else {
        seek(run);
    }
    Ok(outcomes::END_OF_STREAM)
}
