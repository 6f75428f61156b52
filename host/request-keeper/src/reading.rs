//! What the state area holds besides the fields that every shell reads: for monitors, drills and tests. Read only; the
//! offsets are docs/LAYOUT.md's, "State area".

use crate::{Hex, Id, ModifierType, Peer, RequestKeeper, Settings};
use std::fmt::{self, Debug, Display, Formatter};

const TIMEOUT: usize = 16;
const MAX_CHECKS: usize = 20;
const MIN_SYNC_SEND_INTERVAL: usize = 24;
const STALL_TIMEOUT: usize = 28;
const LAST_PROGRESS: usize = 32;
const LAST_SEND: usize = 40;
const STALLED_COUNT: usize = 68;
const PENDING_COUNT: usize = 70;
const EVICTED_COUNT: usize = 72;
const STALLED: usize = 512;
const REGION: usize = 2_560;
const RECORD: usize = 54;

/// A request that is on order.
#[derive(Clone, Copy, PartialEq, Eq)]
pub struct PendingRequest {
    pub id: Id,
    /// Whom it was last asked of.
    pub peer: Peer,
    pub modifier_type: ModifierType,
    /// The clock of the request, or of the last check that retried it.
    pub stamp: u64,
    /// How many checks have found it expired.
    pub checks: u32,
}

impl PendingRequest {
    /// `None` for a part that is shorter than a record.
    fn read(record: &[u8]) -> Option<Self> {
        let (id, rest) = record.split_first_chunk()?;
        let (peer, rest) = rest.split_first_chunk()?;
        let (modifier_type, rest) = rest.split_first_chunk()?;
        let (stamp, rest) = rest.split_first_chunk()?;
        Some(Self {
            id: *id,
            peer: Peer(u64::from_be_bytes(*peer)),
            modifier_type: ModifierType::of_bytes(*modifier_type),
            stamp: u64::from_be_bytes(*stamp),
            checks: u32::from_be_bytes(*rest.first_chunk()?),
        })
    }
}

impl Debug for PendingRequest {
    fn fmt(&self, out: &mut Formatter<'_>) -> fmt::Result {
        out.debug_struct("PendingRequest")
            .field("id", &Hex(&self.id))
            .field("peer", &self.peer)
            .field("modifier_type", &self.modifier_type)
            .field("stamp", &self.stamp)
            .field("checks", &self.checks)
            .finish()
    }
}

impl Display for PendingRequest {
    fn fmt(&self, out: &mut Formatter<'_>) -> fmt::Result {
        write!(
            out,
            "{} {} of {}, stamp {}, checks {}",
            self.modifier_type,
            Hex(&self.id),
            self.peer,
            self.stamp,
            self.checks
        )
    }
}

impl RequestKeeper {
    /// The bytes from an offset on; the state area is always whole.
    fn part(&self, at: usize) -> &[u8] {
        self.as_bytes().get(at..).unwrap_or_default()
    }

    fn count(&self, at: usize) -> usize {
        usize::from(u16::from_be_bytes(self.field(at)))
    }

    /// What the keeper was opened with.
    pub fn settings(&self) -> Settings {
        let setting = |at| u32::from_be_bytes(self.field(at));
        Settings {
            timeout: setting(TIMEOUT),
            max_checks: setting(MAX_CHECKS),
            min_sync_send_interval: setting(MIN_SYNC_SEND_INTERVAL),
            stall_timeout: setting(STALL_TIMEOUT),
        }
    }

    /// The clock from which a stall is counted.
    pub fn last_progress(&self) -> u64 {
        u64::from_be_bytes(self.field(LAST_PROGRESS))
    }

    /// The clock of the last sync info; no other is sent within the interval of the settings.
    pub fn last_send(&self) -> u64 {
        u64::from_be_bytes(self.field(LAST_SEND))
    }

    /// The peers that have stalled, in the order of joining. Picks pass over them as long as a listed peer has not
    /// stalled; retries, as long as one other than the failed peer has not.
    pub fn stalled(&self) -> impl Iterator<Item = Peer> + '_ {
        let (peers, _) = self.part(STALLED).as_chunks::<8>();
        let peer = |bytes: &[u8; 8]| Peer(u64::from_be_bytes(*bytes));
        peers.iter().take(self.count(STALLED_COUNT)).map(peer)
    }

    /// The requests on order, ids rising.
    pub fn pending(&self) -> impl Iterator<Item = PendingRequest> + '_ {
        let records = self.part(REGION).chunks(RECORD);
        records
            .take(self.count(PENDING_COUNT))
            .filter_map(PendingRequest::read)
    }

    /// The ids that the next check asks for again, in the order of their eviction, repeats included.
    pub fn evicted(&self) -> impl Iterator<Item = &Id> + '_ {
        let (_, ids) = self.part(REGION).as_rchunks::<32>();
        let first = ids.len().saturating_sub(self.count(EVICTED_COUNT));
        ids.iter().skip(first)
    }
}
