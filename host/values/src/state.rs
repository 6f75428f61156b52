use std::collections::BTreeMap;

/// A modifier id.
pub type Id = [u8; 32];

/// A modifier type.
pub type TypeId = u16;

#[derive(Debug, Clone, Copy, PartialEq, Eq)]
pub enum Mode {
    New,
    Seeking,
    Syncing,
    Synced,
    Ended,
}

impl Mode {
    pub const ALL: [Mode; 5] = [
        Mode::New,
        Mode::Seeking,
        Mode::Syncing,
        Mode::Synced,
        Mode::Ended,
    ];

    pub fn number(self) -> u8 {
        self as u8
    }

    pub fn from_number(number: u8) -> Option<Self> {
        Self::ALL.get(usize::from(number)).copied()
    }

    pub fn name(self) -> &'static str {
        ["new", "seeking", "syncing", "synced", "ended"][self as usize]
    }

    /// Syncing and synced have a sync peer, the others none.
    pub fn has_sync_peer(self) -> bool {
        matches!(self, Mode::Syncing | Mode::Synced)
    }
}

/// Settings in milliseconds, save for the check limit.
#[derive(Debug, Clone, Copy, PartialEq, Eq)]
pub struct Settings {
    pub timeout: u32,
    pub max_checks: u32,
    pub min_sync_send_interval: u32,
    pub stall_timeout: u32,
}

/// A pending request.
#[derive(Debug, Clone, Copy, PartialEq, Eq)]
pub struct Request {
    pub peer: u64,
    pub type_id: TypeId,
    pub stamp: u64,
    pub checks: u32,
}

/// What the state area says.
#[derive(Debug, Clone, PartialEq, Eq)]
pub struct State {
    pub mode: Mode,
    /// The send that progress may make has been tried since the last entry or scheduled tick.
    pub progress_mark: bool,
    /// The last finished step was an entry to syncing that sent.
    pub entry_mark: bool,
    pub last_clock: u64,
    pub settings: Settings,
    pub last_progress: u64,
    pub last_send: u64,
    /// Present in syncing and synced, and only there.
    pub sync_peer: Option<u64>,
    pub sends_counted: u32,
    pub downloaded: u32,
    pub known_tip: u32,
    /// In the order of joining.
    pub stalled: Vec<u64>,
    pub pending: BTreeMap<Id, Request>,
    /// In the order of eviction, repeats included.
    pub evicted: Vec<Id>,
}
