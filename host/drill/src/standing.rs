//! What the keeper knows at a moment, read off its state.

use request_keeper::{Id, Mode, Peer, PendingRequest, RequestKeeper};
use std::collections::BTreeMap;

#[derive(Debug, Clone, PartialEq, Eq)]
pub struct Standing {
    pub mode: Mode,
    pub sync_peer: Option<Peer>,
    pub downloaded: u32,
    pub known_tip: u32,
    pub last_clock: u64,
    pub last_progress: u64,
    pub last_send: u64,
    pub pending: BTreeMap<Id, PendingRequest>,
    /// In the order of eviction, repeats included.
    pub evicted: Vec<Id>,
    pub stalled: Vec<Peer>,
}

impl Standing {
    pub fn of(keeper: &RequestKeeper) -> Self {
        Self {
            mode: keeper.mode(),
            sync_peer: keeper.sync_peer(),
            downloaded: keeper.downloaded_height(),
            known_tip: keeper.known_tip(),
            last_clock: keeper.last_clock(),
            last_progress: keeper.last_progress(),
            last_send: keeper.last_send(),
            pending: keeper
                .pending()
                .map(|request| (request.id, request))
                .collect(),
            evicted: keeper.evicted().copied().collect(),
            stalled: keeper.stalled().collect(),
        }
    }
}
