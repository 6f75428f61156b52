//! The lists and the view lent to a call: the tests of 6, 7 and 8, and reading them.

use keeper_values::numbers::limits;
use keeper_values::numbers::widths::{ID, PAIR, PEER, PLACE, ROW, TYPE};
use keeper_values::{Arguments, Id, Place, Row, TypeId};
use std::collections::BTreeSet;

const ABSENT: u8 = 255;

fn entries_fit(bytes: &[u8], width: usize, most: usize) -> bool {
    bytes.len().is_multiple_of(width) && bytes.len() / width <= most
}

/// Ids: at most 1,024; a needed modifier is one id.
pub fn ids_fit(ids: &[u8]) -> bool {
    entries_fit(ids, ID, limits::IDS)
}

pub fn needed_fits(ids: &[u8]) -> bool {
    ids.len() == ID
}

pub fn continuation_fits(ids: &[u8]) -> bool {
    entries_fit(ids, ID, limits::CONTINUATION)
}

/// Stored pairs: at most 1,024, strictly rising.
pub fn stored_fits(pairs: &[u8]) -> bool {
    let rises = |pair: &[u8]| pair[..PAIR] < pair[PAIR..];
    entries_fit(pairs, PAIR, limits::STORED)
        && (PAIR..pairs.len())
            .step_by(PAIR)
            .all(|at| rises(&pairs[at - PAIR..at + PAIR]))
}

pub fn peers_fit(peers: &[u8]) -> bool {
    entries_fit(peers, PEER, limits::PEERS)
}

/// View: a first height, whole rows, none past height 2^32 - 1.
pub fn view_fits(view: &[u8]) -> bool {
    let Some((first, rows)) = view.split_first_chunk::<4>() else {
        return false;
    };
    let last = u64::from(u32::from_be_bytes(*first)) + (rows.len() / ROW) as u64;
    rows.len().is_multiple_of(ROW) && last <= 1 << 32 && rows.chunks_exact(ROW).all(row_fits)
}

/// Row: a count, its places with a stored byte of 0 or 1, and zeros.
pub fn row_fits(row: &[u8]) -> bool {
    let used = match row[0] {
        ABSENT => 0,
        count @ 0..=3 => usize::from(count),
        _ => return false,
    };
    let (places, unused) = row[1..].split_at(used * PLACE);
    places.chunks_exact(PLACE).all(|place| place[PAIR] <= 1) && unused.iter().all(|b| *b == 0)
}

/// A step's arguments, once they have passed the tests.
pub struct Inputs<'a> {
    pub kind: u8,
    pub clock: u64,
    pub gate: bool,
    pub height: u32,
    pub peer: u64,
    pub type_id: TypeId,
    pub fork: u32,
    pub parsed: bool,
    /// The peer's tip; it and the continuation ids are read only if parsing worked.
    pub tip: Option<u32>,
    pub ids: Vec<Id>,
    pub continuation: Vec<Id>,
    pub stored: BTreeSet<(TypeId, Id)>,
    pub peers: Vec<u64>,
    view: &'a [u8],
}

fn id(bytes: &[u8]) -> Id {
    let mut id = [0; ID];
    id.copy_from_slice(bytes);
    id
}

/// The type that a pair or a place begins with.
fn type_id(bytes: &[u8]) -> TypeId {
    TypeId::from_be_bytes([bytes[0], bytes[1]])
}

impl<'a> Inputs<'a> {
    pub fn read(arguments: &'a Arguments) -> Self {
        let ids = |bytes: &[u8]| bytes.chunks_exact(ID).map(id).collect();
        let peer = |bytes: &[u8]| bytes.iter().fold(0, |peer, b| peer << 8 | u64::from(*b));
        Self {
            kind: arguments.kind,
            clock: arguments.clock,
            gate: arguments.gate == 1,
            height: arguments.height,
            peer: arguments.peer,
            type_id: arguments.type_id,
            fork: arguments.fork,
            parsed: arguments.parsed == 1,
            tip: (arguments.has_tip == 1).then_some(arguments.tip),
            ids: ids(&arguments.ids),
            continuation: ids(&arguments.continuation),
            stored: arguments
                .stored
                .chunks_exact(PAIR)
                .map(|pair| (type_id(pair), id(&pair[TYPE..])))
                .collect(),
            peers: arguments.peers.chunks_exact(PEER).map(peer).collect(),
            view: &arguments.view,
        }
    }

    pub fn row(&self, height: u32) -> Option<Row> {
        row(self.view, height)
    }
}

/// The view's row for a height, if it has one.
pub fn row(view: &[u8], height: u32) -> Option<Row> {
    let (first, rows) = view.split_first_chunk::<4>()?;
    let index = height.checked_sub(u32::from_be_bytes(*first))? as usize;
    let row = rows.chunks_exact(ROW).nth(index)?;
    if row[0] == ABSENT {
        return Some(Row::Absent);
    }
    let places = row[1..].chunks_exact(PLACE).take(usize::from(row[0]));
    let place = |place: &[u8]| Place {
        type_id: type_id(place),
        id: id(&place[TYPE..PAIR]),
        stored: place[PAIR] == 1,
    };
    Some(Row::Present(places.map(place).collect()))
}
