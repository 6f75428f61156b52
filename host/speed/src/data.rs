//! States and calls with given ids.

use keeper_values::numbers::{kinds, types};
use keeper_values::{Call, Id, Mode, Place, Request, Row, Settings, State, TypeId, View};
use std::collections::BTreeMap;

pub const CLOCK: u64 = 1_000_000;
pub const SYNC_PEER: u64 = 7;
pub const OTHER_PEER: u64 = 8;
pub const HEIGHT: u32 = 500_000;

/// Long enough ago to be expired.
pub const LONG_AGO: u64 = CLOCK - SETTINGS.timeout as u64;

pub const SETTINGS: Settings = Settings {
    timeout: 10_000,
    max_checks: 100,
    min_sync_send_interval: 200,
    stall_timeout: 60_000,
};

/// In syncing, nothing pending, no send due.
pub fn quiet() -> State {
    State {
        mode: Mode::Syncing,
        progress_mark: false,
        entry_mark: false,
        last_clock: CLOCK,
        settings: SETTINGS,
        last_progress: CLOCK,
        last_send: CLOCK,
        sync_peer: Some(SYNC_PEER),
        sends_counted: 3,
        downloaded: HEIGHT,
        known_tip: HEIGHT,
        stalled: Vec::new(),
        pending: BTreeMap::new(),
        evicted: Vec::new(),
    }
}

pub fn synced(state: State) -> State {
    State {
        mode: Mode::Synced,
        ..state
    }
}

/// These ids pending from the sync peer, requested at this clock.
pub fn pending(ids: &[Id], stamp: u64) -> State {
    let request = Request {
        peer: SYNC_PEER,
        type_id: types::HEADER,
        stamp,
        checks: 0,
    };
    State {
        pending: ids.iter().map(|id| (*id, request)).collect(),
        ..quiet()
    }
}

/// Each from a peer of its own.
pub fn from_distinct_peers(ids: &[Id], stamp: u64) -> State {
    let mut state = pending(ids, stamp);
    for (id, request) in &mut state.pending {
        request.peer = u64::from_be_bytes([id[8], id[9], id[10], id[11], id[12], id[13], 0, 1]);
    }
    state
}

pub fn call(kind: u8) -> Call {
    Call {
        kind,
        clock: CLOCK,
        gate: true,
        height: HEIGHT,
        peer: SYNC_PEER,
        type_id: types::HEADER,
        peers: vec![OTHER_PEER, SYNC_PEER],
        view: View {
            first: HEIGHT + 1,
            rows: Vec::new(),
        },
        ..Call::default()
    }
}

pub fn with_ids(kind: u8, ids: Vec<Id>) -> Call {
    Call { ids, ..call(kind) }
}

/// A section tick whose window lists these ids, three to a height, none stored.
pub fn window(ids: &[Id]) -> Call {
    const TYPES: [TypeId; 3] = [
        types::BLOCK_TRANSACTIONS,
        types::AD_PROOFS,
        types::EXTENSION,
    ];
    let places = |ids: &[Id]| {
        let place = |(type_id, id): (&TypeId, &Id)| Place {
            type_id: *type_id,
            id: *id,
            stored: false,
        };
        TYPES.iter().zip(ids).map(place).collect()
    };
    let rows: Vec<Row> = ids
        .chunks_exact(TYPES.len())
        .map(|ids| Row::Present(places(ids)))
        .collect();
    Call {
        height: HEIGHT + rows.len() as u32,
        view: View {
            first: HEIGHT + 1,
            rows,
        },
        ..call(kinds::SECTION_TICK)
    }
}
