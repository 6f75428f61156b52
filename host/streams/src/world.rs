//! The surroundings of one random stream: pools of ids, peers and types, the chain, and what is stored.

use crate::rng::Rng;
use crate::shapes::Shape;
use keeper_values::numbers::types;
use keeper_values::{Id, Place, Row, Settings, TypeId, View};
use std::collections::BTreeSet;

/// Types of two bytes, and 255: those around a byte's end and those that end in a known type's low byte (F-6). 258 comes more
/// often: all that is said of transactions is not said of it.
const WIDE: [TypeId; 13] = [
    255, 256, 257, 258, 258, 258, 300, 301, 357, 358, 360, 364, 65_535,
];

pub struct World {
    pub ids: Vec<Id>,
    pub peers: Vec<u64>,
    pub settings: Settings,
    pub stored: BTreeSet<(TypeId, Id)>,
    /// In the oracle's domain the flags of a view agree with the pairs; some streams let them differ.
    pub agreeing: bool,
    /// All headers present, all sections missing: whole windows are seen.
    pub solid: bool,
    /// Many peers, nearly all of them stalled.
    pub crowded: bool,
    /// Types of two bytes are met: outside the oracle's domain.
    pub wide: bool,
    pub chain_height: u32,
    /// Changes with each reorg, so that heights get other sections.
    pub branch: u64,
    /// Steps per stream in which peers come and go.
    pub listed: Vec<u64>,
}

/// The shape of a pool of random ids: every other one stays random. It is read off the pool's first id, so that what is
/// drawn for the rest of a stream does not depend on it.
fn shape(first: &Id) -> Shape {
    let [.., one, other] = *first;
    if one % 2 == 0 {
        return Shape::Random;
    }
    Shape::HOSTILE[usize::from(other) % Shape::HOSTILE.len()].0
}

fn pool(rng: &mut Rng, size: usize) -> Vec<Id> {
    let base: Id = std::array::from_fn(|_| rng.draw() as u8);
    let style = rng.below(4);
    let shape = shape(&base);
    let mut ids: Vec<Id> = (0..size)
        .map(|index| {
            let mut id = base;
            let bytes = (index as u16).to_be_bytes();
            match style {
                0 => id[0] = bytes[1],
                1 => id[31] = bytes[1],
                2 => id = shape.id(&base, index, std::array::from_fn(|_| rng.draw() as u8)),
                _ => id[15..17].copy_from_slice(&bytes),
            }
            if style < 2 {
                // Pools of more than 256 need a second byte.
                id[16] = bytes[0];
            }
            id
        })
        .collect();
    if rng.once_in(3) {
        ids.push([0; 32]);
        ids.push([255; 32]);
    }
    ids
}

impl World {
    pub fn new(rng: &mut Rng, start: u32) -> Self {
        let solid = rng.once_in(40);
        let size = match rng.below(20) {
            _ if solid => rng.range(300, 700) as usize,
            0 => 1,
            1 => rng.range(300, 1_200) as usize,
            2..=4 => rng.range(30, 90) as usize,
            _ => rng.range(3, 16) as usize,
        };
        let mut peers = vec![0, 1, 7, u64::MAX];
        let crowded = rng.once_in(40);
        let more = if crowded { 300 } else { rng.below(4) };
        peers.extend((0..more).map(|_| rng.draw()));
        let settings = Settings {
            timeout: rng.pick(&[0, 1, 5, 10, 10, 100, 10_000, u32::MAX]),
            max_checks: rng.pick(&[0, 1, 2, 2, 3, 3, 5, 100, u32::MAX]),
            min_sync_send_interval: rng.pick(&[0, 0, 1, 5, 20, 200, u32::MAX]),
            stall_timeout: rng.pick(&[0, 1, 20, 50, 60_000, u32::MAX]),
        };
        let ids = pool(rng, size);
        let listed = vec![peers[rng.index(peers.len())]];
        Self {
            ids,
            peers,
            settings,
            stored: BTreeSet::new(),
            agreeing: !rng.once_in(4),
            solid,
            crowded,
            wide: rng.once_in(8),
            chain_height: start.saturating_add(rng.below(4) as u32),
            branch: rng.draw(),
            listed,
        }
    }

    pub fn id(&self, rng: &mut Rng) -> Id {
        self.ids[rng.index(self.ids.len())]
    }

    pub fn peer(&self, rng: &mut Rng) -> u64 {
        self.peers[rng.index(self.peers.len())]
    }

    pub fn type_id(&self, rng: &mut Rng) -> TypeId {
        match rng.below(12) {
            0 if self.wide => rng.draw() as TypeId,
            0 => rng.draw() as TypeId & 255,
            1 => rng.pick(&[0, 1, 3, 100, 103, 105, 107, 109, 255]),
            2..=4 if self.wide => rng.pick(&WIDE),
            _ => rng.pick(&types::KNOWN),
        }
    }

    /// Lets modifiers arrive and vanish, and peers come and go.
    pub fn drift(&mut self, rng: &mut Rng) {
        for _ in 0..rng.below(3) {
            let pair = (self.type_id(rng), self.id(rng));
            if self.stored.len() >= 1_000 || rng.once_in(4) {
                self.stored.remove(&pair);
            } else {
                self.stored.insert(pair);
            }
        }
        match rng.below(8) {
            0 => self.listed.clear(),
            1 | 2 => {
                let peer = self.peer(rng);
                self.listed.insert(0, peer);
                self.listed.truncate(5);
            }
            3 => {
                let peer = self.peer(rng);
                self.listed.push(peer);
                self.listed.truncate(128);
            }
            4 if rng.once_in(20) => {
                self.listed = (0..128).map(|_| self.peer(rng)).collect();
            }
            5 if !self.listed.is_empty() => {
                let index = rng.index(self.listed.len());
                self.listed.remove(index);
            }
            _ => {}
        }
    }

    /// The row of a height: the same each time, save for what has been stored since.
    pub fn row(&self, rng: &mut Rng, height: u32) -> Row {
        let mut fixed = Rng::new(self.branch ^ u64::from(height).wrapping_mul(0x9e37_79b9));
        if !self.solid && fixed.once_in(12) {
            return Row::Absent;
        }
        let sections = [
            types::BLOCK_TRANSACTIONS,
            types::AD_PROOFS,
            types::EXTENSION,
        ];
        let count = if self.solid { 3 } else { fixed.below(4) };
        let odd = fixed.once_in(5);
        let places = (0..count as usize).map(|index| {
            let type_id = if odd {
                self.type_id(&mut fixed)
            } else {
                sections[index]
            };
            let id = self.id(&mut fixed);
            let stored = if self.agreeing {
                self.stored.contains(&(type_id, id))
            } else {
                rng.once_in(2)
            };
            Place {
                type_id,
                id,
                stored,
            }
        });
        Row::Present(places.collect())
    }

    /// A view from `first` that reaches the chain height or, now and then, stops short.
    pub fn view(&self, rng: &mut Rng, first: u32) -> View {
        let first = match rng.below(20) {
            0 => first.saturating_sub(rng.below(4) as u32),
            1 => first.saturating_add(rng.below(3) as u32),
            _ => first,
        };
        let most = if self.solid { 200 } else { 12 };
        let wanted = u64::from(self.chain_height).saturating_sub(u64::from(first)) + 1;
        let room = (1 << 32) - u64::from(first);
        let mut length = wanted.min(most);
        match rng.below(16) {
            0 => length = rng.below(length + 1),
            1 => length += rng.below(3),
            _ => {}
        }
        let rows = (0..length.min(room)).map(|offset| self.row(rng, first + offset as u32));
        View {
            first,
            rows: rows.collect(),
        }
    }
}
