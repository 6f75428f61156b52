//! The numbers of docs/LAYOUT.md.

/// Modifier types of Ergo's protocol.
pub mod types {
    use crate::TypeId;

    pub const TRANSACTION: TypeId = 2;
    pub const HEADER: TypeId = 101;
    pub const BLOCK_TRANSACTIONS: TypeId = 102;
    pub const AD_PROOFS: TypeId = 104;
    pub const EXTENSION: TypeId = 108;

    pub const KNOWN: [TypeId; 5] = [
        TRANSACTION,
        HEADER,
        BLOCK_TRANSACTIONS,
        AD_PROOFS,
        EXTENSION,
    ];
}

/// Bytes of what crosses the boundary, and of a pending record.
pub mod widths {
    pub const ID: usize = 32;
    pub const PEER: usize = 8;
    pub const TYPE: usize = 2;
    /// A stored pair: type and id.
    pub const PAIR: usize = TYPE + ID;
    /// A place of a row: type, id, and whether it is stored.
    pub const PLACE: usize = PAIR + 1;
    /// A row: a count, and three places.
    pub const ROW: usize = 1 + 3 * PLACE;
    /// A command before its ids: kind, type, batch, peer, count.
    pub const HEADER: usize = 1 + TYPE + 2 + PEER + 4;
    /// A pending record: id, peer, type, stamp, checks.
    pub const RECORD: usize = ID + PEER + TYPE + 8 + 4;
}

/// Step kinds.
pub mod kinds {
    pub const START: u8 = 1;
    pub const PICK: u8 = 2;
    pub const NEEDED: u8 = 3;
    pub const REORG: u8 = 4;
    pub const ANNOUNCED: u8 = 5;
    pub const SYNC_INFO: u8 = 6;
    pub const OTHER_MESSAGE: u8 = 7;
    pub const LOST_PEER: u8 = 8;
    pub const RECEIVED: u8 = 9;
    pub const EVICTED: u8 = 10;
    pub const PROGRESS: u8 = 11;
    pub const CHECK: u8 = 12;
    pub const SCHEDULED_TICK: u8 = 13;
    pub const SECTION_TICK: u8 = 14;
    pub const SEND_FAILURE: u8 = 15;
    pub const END_OF_STREAM: u8 = 16;

    /// The last number that is a step kind; 0 and what is above are not.
    pub const LAST: u8 = END_OF_STREAM;

    /// A word for each kind.
    pub fn name(kind: u8) -> &'static str {
        const NAMES: [&str; 17] = [
            "unknown",
            "start",
            "pick",
            "needed modifier",
            "reorg",
            "announced ids",
            "sync info",
            "other message",
            "lost peer",
            "received ids",
            "evicted ids",
            "progress",
            "check",
            "scheduled tick",
            "section tick",
            "send failure",
            "end of stream",
        ];
        NAMES.get(usize::from(kind)).copied().unwrap_or(NAMES[0])
    }
}

/// Outcomes of a finished step.
pub mod outcomes {
    pub const CONTINUE: u32 = 0;
    pub const SYNCED: u32 = 1;
    pub const BEHIND_PEER: u32 = 2;
    pub const PEER_GONE: u32 = 3;
    pub const STALLED: u32 = 4;
    pub const END_OF_STREAM: u32 = 5;
}

/// Kinds of a command.
pub mod commands {
    pub const REQUEST: u8 = 1;
    pub const ANNOUNCEMENT: u8 = 2;
    pub const SYNC_INFO: u8 = 3;
}

/// Limits of document 01.
pub mod limits {
    /// Pending and evicted together.
    pub const TRACKED: usize = 1024;
    pub const STALLED: usize = 256;
    /// Ids in one request.
    pub const RUN: usize = 400;
    /// Heights in rule 4's window.
    pub const WINDOW: u32 = 192;
    pub const IDS: usize = 1024;
    pub const CONTINUATION: usize = 400;
    pub const STORED: usize = 1024;
    pub const PEERS: usize = 128;
}
