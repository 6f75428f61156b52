//! Short names for what a report speaks of.

use keeper_streams::text::hex;
use keeper_values::numbers::{outcomes, types};
use keeper_values::{Id, TypeId};
use std::collections::BTreeSet;

/// Ids by their last digits, as many as tell them apart.
#[derive(Debug, Clone, Copy)]
pub struct Names {
    bytes: usize,
}

impl Names {
    pub fn new(ids: &[Id]) -> Self {
        let different: BTreeSet<&Id> = ids.iter().collect();
        let apart = |bytes: &usize| {
            let ends: BTreeSet<&[u8]> = different.iter().map(|id| &id[32 - bytes..]).collect();
            ends.len() == different.len()
        };
        let bytes = (2..32).find(apart).unwrap_or(32);
        Self { bytes }
    }

    pub fn id(&self, id: &Id) -> String {
        let end = hex(&id[32 - self.bytes..]);
        if self.bytes == 32 {
            end
        } else {
            format!("..{end}")
        }
    }

    /// A type and an id, as stored pairs hold them.
    pub fn pair(&self, pair: &[u8]) -> Option<String> {
        let (type_id, id) = pair.split_first_chunk()?;
        let type_id = TypeId::from_be_bytes(*type_id);
        Some(format!("{type_id}:{}", self.id(&id.try_into().ok()?)))
    }

    pub fn ids<'i>(&self, ids: impl IntoIterator<Item = &'i Id>) -> Vec<String> {
        ids.into_iter().map(|id| self.id(id)).collect()
    }
}

pub fn type_name(type_id: TypeId) -> String {
    let name = match type_id {
        types::TRANSACTION => "transaction",
        types::HEADER => "header",
        types::BLOCK_TRANSACTIONS => "block transactions",
        types::AD_PROOFS => "AD proofs",
        types::EXTENSION => "extension",
        _ => return format!("type {type_id}"),
    };
    format!("type {type_id} ({name})")
}

pub fn outcome(number: u64) -> String {
    let name = match u32::try_from(number).unwrap_or(u32::MAX) {
        outcomes::CONTINUE => "Continue",
        outcomes::SYNCED => "Synced",
        outcomes::BEHIND_PEER => "BehindPeer",
        outcomes::PEER_GONE => "sync peer gone",
        outcomes::STALLED => "Stalled",
        outcomes::END_OF_STREAM => "end of stream",
        _ => "no such outcome",
    };
    format!("{number} {name}")
}

/// What a refusal is given for (docs/LAYOUT.md, "Refusals").
pub fn refusal(number: u32) -> &'static str {
    match number {
        0 => "finished",
        1 => "state not 65,536 bytes",
        2 => "image malformed",
        3 => "command area under 65,536 bytes",
        4 => "clock before the last clock",
        5 => {
            "kind unknown or not of this mode, a flag not 0 or 1, or a send failure after anything \
             but an entry that sent"
        }
        6 => "ids, continuation ids or stored pairs of bad length, size or order",
        7 => "peers of bad length or size",
        8 => "view malformed",
        9 => "a rule would read a height, up to the chain height, that the view has no row for",
        10 => "pending + evicted would be above 1,024",
        11 => "a 257th stalled peer",
        _ => "no such number",
    }
}
