//! Ids and peers by small numbers, in their order.

use crate::stream::{id, view_pairs, Call, Stream};
use keeper_values::numbers::widths::{ID, PAIR, TYPE};
use keeper_values::Id;
use std::collections::{BTreeMap, BTreeSet};

pub fn ids(stream: &Stream) -> Stream {
    let sorted: BTreeSet<Id> = stream.ids().into_iter().collect();
    let small = |(index, id): (usize, Id)| {
        let mut small = [0; 32];
        small[24..].copy_from_slice(&(index as u64 + 1).to_be_bytes());
        (id, small)
    };
    let names: BTreeMap<Id, Id> = sorted.into_iter().enumerate().map(small).collect();
    let rename = |bytes: &mut [u8]| {
        if let Some(small) = id(bytes).and_then(|id| names.get(&id)) {
            bytes.copy_from_slice(small);
        }
    };
    let mut renamed = stream.clone();
    for call in &mut renamed.calls {
        let Call::Step(step) = call else { continue };
        let lists = step.ids.chunks_exact_mut(ID);
        lists
            .chain(step.continuation.chunks_exact_mut(ID))
            .for_each(rename);
        step.stored
            .chunks_exact_mut(PAIR)
            .for_each(|pair| rename(&mut pair[TYPE..]));
        for at in view_pairs(&step.view) {
            if let Some(bytes) = step.view.get_mut(at + TYPE..at + PAIR) {
                rename(bytes);
            }
        }
    }
    renamed
}

/// Peer 0 stays: where a step reads no peer, it stands for none.
pub fn peers(stream: &Stream) -> Stream {
    let number = |bytes: &[u8]| bytes.try_into().map_or(0, u64::from_be_bytes);
    let mut sorted = BTreeSet::new();
    for call in &stream.calls {
        let Call::Step(step) = call else { continue };
        sorted.insert(step.peer);
        sorted.extend(step.peers.chunks_exact(8).map(number));
    }
    sorted.remove(&0);
    let names: BTreeMap<u64, u64> = sorted.into_iter().zip(1..).collect();
    let small = |peer: u64| names.get(&peer).copied().unwrap_or(peer);
    let mut renamed = stream.clone();
    for call in &mut renamed.calls {
        let Call::Step(step) = call else { continue };
        step.peer = small(step.peer);
        for bytes in step.peers.chunks_exact_mut(8) {
            bytes.copy_from_slice(&small(number(bytes)).to_be_bytes());
        }
    }
    renamed
}
