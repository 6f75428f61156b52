//! What surrounds the keeper in a drill: the node's part, as the scenario says it is. Nothing is decided here.

use crate::scenario::{Change, Sections, Wake};
use request_keeper::{
    Id, ModifierType, Peer, Question, Refusal, RequestKeeper, Section, StoredPairs, View,
};
use std::collections::{BTreeMap, BTreeSet};

/// What a node knows at a moment.
#[derive(Debug, Clone)]
pub struct World {
    pub peers: Vec<Peer>,
    /// Sends to these peers fail.
    pub fails: BTreeSet<Peer>,
    pub gate_open: bool,
    pub chain_height: u32,
    /// The headers there are.
    headers: BTreeMap<u32, Sections>,
    stored: BTreeSet<Id>,
    most_rows: Option<usize>,
}

impl World {
    /// At first: nobody is listed, the gate is open, and the chain ends at the start height.
    pub fn opened(start_height: u32) -> Self {
        Self {
            peers: Vec::new(),
            fails: BTreeSet::new(),
            gate_open: true,
            chain_height: start_height,
            headers: BTreeMap::new(),
            stored: BTreeSet::new(),
            most_rows: None,
        }
    }

    pub fn change(&mut self, change: &Change) {
        match change {
            Change::Peers(peers) => self.peers.clone_from(peers),
            Change::Fails(peers) => self.fails = peers.iter().copied().collect(),
            Change::GateOpen(open) => self.gate_open = *open,
            Change::Chain(height) => self.chain_height = *height,
            Change::Headers(rows) => {
                for (height, sections) in rows {
                    match sections {
                        Some(sections) => self.headers.insert(*height, sections.clone()),
                        None => self.headers.remove(height),
                    };
                }
            }
            Change::Stored(ids) => self.stored.extend(ids),
            Change::Unstored(ids) => self.stored.retain(|id| !ids.contains(id)),
            Change::View(rows) => self.most_rows = *rows,
        }
    }

    pub fn has(&self, id: &Id) -> bool {
        self.stored.contains(id)
    }

    /// A height's sections; `None` if its header is absent.
    pub fn sections(&self, height: u32) -> Option<&Sections> {
        self.headers.get(&height)
    }

    fn row(&self, height: u32) -> Option<Vec<Section>> {
        let section = |(modifier_type, id): &(ModifierType, Id)| Section {
            modifier_type: *modifier_type,
            id: *id,
            stored: self.has(id),
        };
        let sections = self.sections(height)?;
        Some(sections.iter().map(section).collect())
    }

    /// How many rows a step is lent at most, if the scenario says so.
    pub fn most_rows(&self) -> Option<usize> {
        self.most_rows
    }

    /// Above which height a step's view begins.
    fn view_from(wake: &Wake, downloaded: u32) -> u32 {
        match wake {
            Wake::Reorg(fork_point) => downloaded.min(*fork_point),
            _ => downloaded,
        }
    }

    /// The first height of a step's view whose block has more sections than this, and how many it has.
    pub fn rows_above(&self, wake: &Wake, downloaded: u32, most: usize) -> Option<(u32, usize)> {
        let from = Self::view_from(wake, downloaded);
        let mut long = self.headers.iter().filter(|(_, row)| row.len() > most);
        let first = long.find(|(height, _)| **height > from)?;
        Some((*first.0, first.1.len()))
    }

    /// The view for a step: as long as the rules read, or as the scenario cuts it short.
    pub fn view(&self, wake: &Wake, downloaded: u32) -> Result<View, Refusal> {
        let from = Self::view_from(wake, downloaded);
        let most = self
            .most_rows
            .map(|rows| u32::try_from(rows).unwrap_or(u32::MAX));
        let cut = most.map_or(u32::MAX, |rows| from.saturating_add(rows));
        View::of_chain(from, self.chain_height.min(cut), |height| self.row(height))
    }

    /// The stored pairs that a step may read (docs/SHELL.md, "What a step is lent").
    pub fn stored_pairs(
        &self,
        wake: &Wake,
        keeper: &mut RequestKeeper,
    ) -> Result<StoredPairs, Refusal> {
        let of = |modifier_type: ModifierType, ids: &[Id]| {
            let known = ids.iter().filter(|id| self.has(id));
            known.map(|id| (modifier_type, *id)).collect()
        };
        let mut asked = |question| {
            let pairs = keeper.question(question)?;
            Ok(pairs.stored_by(|_, id| self.has(id)))
        };
        match wake {
            Wake::Announced(_, modifier_type, ids) => Ok(of(*modifier_type, ids)),
            Wake::Needed(modifier_type, id) => Ok(of(*modifier_type, std::slice::from_ref(id))),
            Wake::Check => asked(Question::Check),
            Wake::Lost(_) => asked(Question::LostPeer),
            _ => Ok(StoredPairs::default()),
        }
    }
}
