use crate::boundary::Arguments;
use crate::{Id, ModifierType, Peer};

/// One wake of the node: what happened. What stands beside a step says what it reads of its [`Surroundings`]; the clock
/// is read by all.
///
/// [`Surroundings`]: crate::Surroundings
#[derive(Clone, Copy, PartialEq, Eq)]
pub enum Step<'a> {
    /// The first step. Reads chain height and view.
    Start,
    /// In seeking: chooses a sync peer among the peers listed. Reads the peers.
    Pick,
    /// The pipeline needs a modifier for a reorg. Reads gate and stored pairs.
    NeededModifier {
        modifier_type: ModifierType,
        id: &'a Id,
    },
    /// The chain has changed its branch. Reads gate, chain height, peers and view.
    Reorg { fork_point: u32 },
    /// A peer announces ids of a type. From the sync peer an empty list of headers says that there are no more, from any
    /// other peer it says nothing. Reads all.
    Announced {
        from: Peer,
        modifier_type: ModifierType,
        ids: &'a [Id],
    },
    /// A peer's sync info; `None` if it could not be parsed. Reads gate, chain height, peers and view.
    SyncInfo {
        from: Peer,
        parsed: Option<SyncInfo<'a>>,
    },
    /// Any other message of a peer.
    OtherMessage,
    /// A peer is gone. Reads gate, stored pairs and peers.
    LostPeer { peer: Peer },
    /// Modifiers have arrived. Reads chain height and view.
    Received { ids: &'a [Id] },
    /// Modifiers that arrived were thrown out and have to come again.
    Evicted { ids: &'a [Id] },
    /// The chain has grown. Reads gate, chain height, peers and view.
    Progress,
    /// The delivery timer. Reads gate, stored pairs and peers, in syncing also chain height and view.
    Check,
    /// The timer of scheduled sync infos. In synced it reads chain height, peers and view.
    ScheduledTick,
    /// The timer of sections, in synced. Reads gate, chain height, peers and view.
    SectionTick,
    /// The sync info that the last step sent on entering syncing could not be sent.
    SendFailure,
    /// There will be no more events.
    EndOfStream,
}

/// A parsed sync info.
#[derive(Clone, Copy, PartialEq, Eq, Default)]
pub struct SyncInfo<'a> {
    /// The peer's tip, if it names one.
    pub tip: Option<u32>,
    /// The ids that continue the peer's chain by ours, at most 400.
    pub continuation: &'a [Id],
}

impl<'a> Step<'a> {
    /// The step's own arguments; those of the surroundings are left zero.
    pub(crate) fn arguments(self) -> Arguments<'a> {
        let none = Arguments::default();
        match self {
            Self::Start => Arguments { kind: 1, ..none },
            Self::Pick => Arguments { kind: 2, ..none },
            Self::NeededModifier { modifier_type, id } => Arguments {
                kind: 3,
                typeid: modifier_type.number(),
                ids: id,
                ..none
            },
            Self::Reorg { fork_point } => Arguments {
                kind: 4,
                fork: fork_point,
                ..none
            },
            Self::Announced {
                from,
                modifier_type,
                ids,
            } => Arguments {
                kind: 5,
                peer: from.0,
                typeid: modifier_type.number(),
                ids: ids.as_flattened(),
                ..none
            },
            Self::SyncInfo { from, parsed } => {
                let info = parsed.unwrap_or_default();
                Arguments {
                    kind: 6,
                    peer: from.0,
                    parsed: u8::from(parsed.is_some()),
                    hastip: u8::from(info.tip.is_some()),
                    tip: info.tip.unwrap_or_default(),
                    continuation: info.continuation.as_flattened(),
                    ..none
                }
            }
            Self::OtherMessage => Arguments { kind: 7, ..none },
            Self::LostPeer { peer } => Arguments {
                kind: 8,
                peer: peer.0,
                ..none
            },
            Self::Received { ids } => Arguments {
                kind: 9,
                ids: ids.as_flattened(),
                ..none
            },
            Self::Evicted { ids } => Arguments {
                kind: 10,
                ids: ids.as_flattened(),
                ..none
            },
            Self::Progress => Arguments { kind: 11, ..none },
            Self::Check => Arguments { kind: 12, ..none },
            Self::ScheduledTick => Arguments { kind: 13, ..none },
            Self::SectionTick => Arguments { kind: 14, ..none },
            Self::SendFailure => Arguments { kind: 15, ..none },
            Self::EndOfStream => Arguments { kind: 16, ..none },
        }
    }
}
