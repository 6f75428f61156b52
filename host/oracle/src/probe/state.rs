//! A child module of the original's state.rs, so that its private fields can be read and put and its inner loop run.

use super::HeaderSync;
use crate::delivery::{probe, CheckResult};
use crate::standins::{Chain, Store, Transport, Validator};
use enr_p2p::types::PeerId;
use keeper_values::State;
use std::future::Future;
use std::sync::atomic::Ordering::Relaxed;
use tokio::time::Instant;

pub type Sync = HeaderSync<Transport, Chain, Store, Validator>;

pub fn run_inner(sync: &mut Sync) -> impl Future<Output = ()> + '_ {
    sync.run_inner()
}

pub fn set_gate(sync: &Sync, open: bool) {
    sync.block_request_gate.store(open, Relaxed);
}

pub fn check_of_copy(sync: &Sync) -> CheckResult {
    probe::check_of_copy(&sync.tracker)
}

/// Takes over what the Rust's fields say. Mode, marks and last clock are the driver's to set.
pub fn read(sync: &Sync, state: &mut State) {
    state.last_progress = sync.last_progress.as_millis();
    state.last_send = sync.last_sync_sent.as_millis();
    state.sync_peer = sync.sync_peer.map(|peer| peer.0);
    state.sends_counted = sync.sync_sent_count;
    state.downloaded = sync.downloaded_height;
    state.known_tip = sync.peer_chain_tip.load(Relaxed);
    state.stalled = sync.stalled_peers.iter().map(|peer| peer.0).collect();
    state.pending = probe::pending(&sync.tracker);
    state.evicted = probe::evicted(&sync.tracker);
}

/// Writes the Rust's fields.
pub fn put(sync: &mut Sync, state: &State) {
    sync.last_progress = Instant::from_millis(state.last_progress);
    sync.last_sync_sent = Instant::from_millis(state.last_send);
    sync.sync_peer = state.sync_peer.map(PeerId);
    sync.sync_sent_count = state.sends_counted;
    sync.downloaded_height = state.downloaded;
    sync.peer_chain_tip.store(state.known_tip, Relaxed);
    sync.stalled_peers = state.stalled.iter().map(|peer| PeerId(*peer)).collect();
    probe::put(&mut sync.tracker, &state.pending, &state.evicted);
}
