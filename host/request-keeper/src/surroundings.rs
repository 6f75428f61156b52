use crate::modifier_type::TYPE;
use crate::{Hex, Id, ModifierType, Peer, View};
use std::collections::BTreeSet;
use std::fmt::{self, Debug, Display, Formatter};

/// A type and an id.
pub(crate) const PAIR: usize = TYPE + 32;

/// What the node says of itself in a call.
///
/// ```
/// use request_keeper::{Peer, Surroundings};
///
/// let peers = [Peer(4), Peer(5)];
/// let now = Surroundings { peers: &peers, chain_height: 50, ..Surroundings::at(1_000) };
/// assert!(now.gate_open);
/// ```
#[derive(Debug, Clone, Copy)]
pub struct Surroundings<'a> {
    /// Milliseconds; never less than in the last finished step.
    pub clock: u64,
    /// Whether modifiers may be requested.
    pub gate_open: bool,
    /// The height of our own header chain.
    pub chain_height: u32,
    /// Outbound peers in the node's order, at most 128.
    pub peers: &'a [Peer],
    /// Which of the ids that the step may ask for are stored, at most 1,024.
    pub stored: &'a StoredPairs,
    /// The heights that the step may read.
    pub view: &'a View,
}

impl Surroundings<'static> {
    /// An open gate at this clock, and nothing else: chain height 0, no peers, no pairs, no rows.
    pub fn at(clock: u64) -> Self {
        const NO_PAIRS: &StoredPairs = &StoredPairs { bytes: Vec::new() };
        const NO_ROWS: &View = &View::EMPTY;
        Self {
            clock,
            gate_open: true,
            chain_height: 0,
            peers: &[],
            stored: NO_PAIRS,
            view: NO_ROWS,
        }
    }
}

/// Pairs of type and id that the store has, collected from any order into the one that the core asks for.
///
/// ```
/// use request_keeper::{ModifierType, StoredPairs};
///
/// let header = ModifierType::HEADER;
/// let pairs: StoredPairs = [(header, [2; 32]), (header, [1; 32]), (header, [2; 32])].into_iter().collect();
/// assert_eq!(pairs.iter().collect::<Vec<_>>(), [(header, &[1; 32]), (header, &[2; 32])]);
/// ```
#[derive(Clone, PartialEq, Eq, Default)]
pub struct StoredPairs {
    bytes: Vec<u8>,
}

impl StoredPairs {
    pub fn iter(&self) -> Pairs<'_> {
        Pairs { rest: &self.bytes }
    }

    /// The bytes lent to a step.
    pub fn as_bytes(&self) -> &[u8] {
        &self.bytes
    }

    fn push(&mut self, modifier_type: ModifierType, id: &Id) {
        self.bytes.extend_from_slice(&modifier_type.bytes());
        self.bytes.extend_from_slice(id);
    }
}

impl FromIterator<(ModifierType, Id)> for StoredPairs {
    fn from_iter<I: IntoIterator<Item = (ModifierType, Id)>>(pairs: I) -> Self {
        let rising: BTreeSet<(ModifierType, Id)> = pairs.into_iter().collect();
        let mut collected = Self::default();
        for (modifier_type, id) in &rising {
            collected.push(*modifier_type, id);
        }
        collected
    }
}

impl<'a> IntoIterator for &'a StoredPairs {
    type Item = (ModifierType, &'a Id);
    type IntoIter = Pairs<'a>;

    fn into_iter(self) -> Pairs<'a> {
        self.iter()
    }
}

impl Debug for StoredPairs {
    fn fmt(&self, out: &mut Formatter<'_>) -> fmt::Result {
        Debug::fmt(&self.iter(), out)
    }
}

impl Display for StoredPairs {
    fn fmt(&self, out: &mut Formatter<'_>) -> fmt::Result {
        write!(out, "{} stored", self.bytes.len() / PAIR)
    }
}

/// Pairs of type and id, strictly rising.
#[derive(Clone)]
pub struct Pairs<'a> {
    rest: &'a [u8],
}

impl<'a> Pairs<'a> {
    pub(crate) fn read(bytes: &'a [u8]) -> Self {
        Self { rest: bytes }
    }

    /// Those that the store has. They are rising already.
    pub fn stored_by(self, mut has: impl FnMut(ModifierType, &Id) -> bool) -> StoredPairs {
        let mut stored = StoredPairs::default();
        for (modifier_type, id) in self {
            if has(modifier_type, id) {
                stored.push(modifier_type, id);
            }
        }
        stored
    }
}

impl Debug for Pairs<'_> {
    fn fmt(&self, out: &mut Formatter<'_>) -> fmt::Result {
        let shown = self
            .clone()
            .map(|(modifier_type, id)| (modifier_type, Hex(id)));
        out.debug_list().entries(shown).finish()
    }
}

impl<'a> Iterator for Pairs<'a> {
    type Item = (ModifierType, &'a Id);

    fn next(&mut self) -> Option<Self::Item> {
        let (pair, rest) = self.rest.split_first_chunk::<PAIR>()?;
        let (modifier_type, id) = pair.split_first_chunk()?;
        self.rest = rest;
        Some((ModifierType::of_bytes(*modifier_type), id.try_into().ok()?))
    }
}
