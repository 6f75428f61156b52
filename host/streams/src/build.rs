//! Short ways to write a stream down.

use crate::{Opening, Script};
use keeper_values::numbers::kinds;
use keeper_values::{Call, Id, Mode, Place, Request, Row, Settings, State, TypeId, View};
use std::collections::BTreeMap;

/// Document 01's cases: timeout 10,000, limit 2, no throttle, stall 60,000.
pub const CASES: Settings = Settings {
    timeout: 10_000,
    max_checks: 2,
    min_sync_send_interval: 0,
    stall_timeout: 60_000,
};

/// An id that differs from the others in its last bytes.
pub fn id(number: u16) -> Id {
    let mut id = [0x11; 32];
    id[30..].copy_from_slice(&number.to_be_bytes());
    id
}

/// As many ids, from `first` on.
pub fn ids(first: u16, count: u16) -> Vec<Id> {
    (first..first + count).map(id).collect()
}

pub fn place(type_id: TypeId, number: u16, stored: bool) -> Place {
    Place {
        type_id,
        id: id(number),
        stored,
    }
}

/// Rows of one missing section each, block transactions numbered by height.
pub fn missing(first: u32, rows: u32) -> View {
    let row = |height: u32| Row::Present(vec![place(102, height as u16, false)]);
    View {
        first,
        rows: (first..first + rows).map(row).collect(),
    }
}

/// Of the states to put in.
pub const SYNC_PEER: u64 = 4;

/// A state to put in: syncing from `SYNC_PEER`, nothing pending.
pub fn syncing(settings: Settings, clock: u64) -> State {
    State {
        mode: Mode::Syncing,
        progress_mark: false,
        entry_mark: false,
        last_clock: clock,
        settings,
        last_progress: clock,
        last_send: clock,
        sync_peer: Some(SYNC_PEER),
        sends_counted: 1,
        downloaded: 0,
        known_tip: 0,
        stalled: Vec::new(),
        pending: BTreeMap::new(),
        evicted: Vec::new(),
    }
}

pub fn pending(first: u16, count: u16, request: Request) -> BTreeMap<Id, Request> {
    ids(first, count)
        .into_iter()
        .map(|id| (id, request))
        .collect()
}

/// A stream under construction: each call has the clock that was set last, an open gate, and else nothing.
pub struct Build {
    script: Script,
    clock: u64,
}

impl Build {
    pub fn open(name: &str, settings: Settings, clock: u64, height: u32) -> Self {
        let opening = Opening::Open {
            settings,
            clock,
            height,
        };
        Self {
            script: Script {
                name: name.to_string(),
                opening,
                calls: Vec::new(),
            },
            clock,
        }
    }

    pub fn put(name: &str, state: State) -> Self {
        let clock = state.last_clock;
        Self {
            script: Script {
                name: name.to_string(),
                opening: Opening::Put(Box::new(state)),
                calls: Vec::new(),
            },
            clock,
        }
    }

    /// Opened, started on an empty chain, and syncing from this peer.
    pub fn begun(name: &str, settings: Settings, peer: u64) -> Self {
        Self::open(name, settings, 0, 0)
            .call(kinds::START, |_| {})
            .call(kinds::PICK, |c| c.peers = vec![peer])
    }

    /// Synced with this peer.
    pub fn synced(name: &str, settings: Settings, peer: u64) -> Self {
        Self::begun(name, settings, peer).announce(peer, 101, vec![])
    }

    pub fn at(mut self, clock: u64) -> Self {
        self.clock = clock;
        self
    }

    pub fn call(mut self, kind: u8, fill: impl FnOnce(&mut Call)) -> Self {
        let mut call = Call {
            kind,
            clock: self.clock,
            gate: true,
            ..Call::default()
        };
        fill(&mut call);
        self.script.calls.push(call);
        self
    }

    /// Ids of a type announced by a peer.
    pub fn announce(self, peer: u64, type_id: TypeId, ids: Vec<Id>) -> Self {
        self.call(kinds::ANNOUNCED, |c| {
            c.peer = peer;
            c.type_id = type_id;
            c.ids = ids;
        })
    }

    /// A check with these peers listed.
    pub fn check(self, peers: &[u64]) -> Self {
        self.call(kinds::CHECK, |c| c.peers = peers.to_vec())
    }

    /// A sync info with a tip.
    pub fn tip(self, peer: u64, height: u32, tip: u32) -> Self {
        self.call(kinds::SYNC_INFO, |c| {
            c.peer = peer;
            c.height = height;
            c.parsed = true;
            c.has_tip = true;
            c.tip = tip;
        })
    }

    pub fn done(self) -> Script {
        self.script
    }
}
