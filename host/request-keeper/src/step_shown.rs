//! Steps and sync infos as people read them: all of it, or in a few words.

use crate::hex::{count, HexList};
use crate::{Hex, Step, SyncInfo};
use std::fmt::{self, Debug, Display, Formatter};

impl Debug for Step<'_> {
    fn fmt(&self, out: &mut Formatter<'_>) -> fmt::Result {
        let mut fields = out.debug_struct(self.name());
        match self {
            Self::NeededModifier { modifier_type, id } => fields
                .field("modifier_type", modifier_type)
                .field("id", &Hex(id)),
            Self::Reorg { fork_point } => fields.field("fork_point", fork_point),
            Self::Announced {
                from,
                modifier_type,
                ids,
            } => fields
                .field("from", from)
                .field("modifier_type", modifier_type)
                .field("ids", &HexList(ids)),
            Self::SyncInfo { from, parsed } => fields.field("from", from).field("parsed", parsed),
            Self::LostPeer { peer } => fields.field("peer", peer),
            Self::Received { ids } | Self::Evicted { ids } => fields.field("ids", &HexList(ids)),
            _ => &mut fields,
        }
        .finish()
    }
}

impl Display for Step<'_> {
    fn fmt(&self, out: &mut Formatter<'_>) -> fmt::Result {
        match self {
            Self::Start => out.write_str("start"),
            Self::Pick => out.write_str("pick"),
            Self::NeededModifier { modifier_type, id } => {
                write!(out, "needed modifier: {modifier_type} {}", Hex(id))
            }
            Self::Reorg { fork_point } => write!(out, "reorg to {fork_point}"),
            Self::Announced {
                from,
                modifier_type,
                ids,
            } => write!(out, "{from} announces {modifier_type}, {}", count(ids)),
            Self::SyncInfo { from, parsed } => match parsed {
                Some(info) => write!(out, "sync info of {from}: {info}"),
                None => write!(out, "sync info of {from}, not parsed"),
            },
            Self::OtherMessage => out.write_str("other message"),
            Self::LostPeer { peer } => write!(out, "lost {peer}"),
            Self::Received { ids } => write!(out, "received {}", count(ids)),
            Self::Evicted { ids } => write!(out, "evicted {}", count(ids)),
            Self::Progress => out.write_str("progress"),
            Self::Check => out.write_str("check"),
            Self::ScheduledTick => out.write_str("scheduled tick"),
            Self::SectionTick => out.write_str("section tick"),
            Self::SendFailure => out.write_str("send failure"),
            Self::EndOfStream => out.write_str("end of stream"),
        }
    }
}

impl Step<'_> {
    fn name(&self) -> &'static str {
        match self {
            Self::Start => "Start",
            Self::Pick => "Pick",
            Self::NeededModifier { .. } => "NeededModifier",
            Self::Reorg { .. } => "Reorg",
            Self::Announced { .. } => "Announced",
            Self::SyncInfo { .. } => "SyncInfo",
            Self::OtherMessage => "OtherMessage",
            Self::LostPeer { .. } => "LostPeer",
            Self::Received { .. } => "Received",
            Self::Evicted { .. } => "Evicted",
            Self::Progress => "Progress",
            Self::Check => "Check",
            Self::ScheduledTick => "ScheduledTick",
            Self::SectionTick => "SectionTick",
            Self::SendFailure => "SendFailure",
            Self::EndOfStream => "EndOfStream",
        }
    }
}

impl Debug for SyncInfo<'_> {
    fn fmt(&self, out: &mut Formatter<'_>) -> fmt::Result {
        out.debug_struct("SyncInfo")
            .field("tip", &self.tip)
            .field("continuation", &HexList(self.continuation))
            .finish()
    }
}

impl Display for SyncInfo<'_> {
    fn fmt(&self, out: &mut Formatter<'_>) -> fmt::Result {
        match self.tip {
            Some(tip) => write!(out, "tip {tip}")?,
            None => out.write_str("no tip")?,
        }
        write!(out, ", continued by {}", count(self.continuation))
    }
}
