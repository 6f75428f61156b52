//! The same work in Rust: memory, the original's tracker, sorted pairs, the reference's test of an image.

use crate::case::{Areas, Beside, Case, Entry, Memory, Prepared};
use crate::data::SETTINGS;
use crate::times::time;
use keeper_oracle::{set_clock, tracker, Maps, Tracker};
use keeper_reference::image;
use keeper_values::numbers::{kinds, types};
use keeper_values::{Call, Id, Row, State, TypeId};
use std::collections::hash_map::DefaultHasher;
use std::collections::{BTreeMap, HashSet};
use std::hash::{Hash, Hasher};
use std::hint::black_box;
use std::time::Duration;

/// One copy of the code, so that where the compiler puts it is the same for all. Eight words at a time: a shorter loop takes
/// twice as long where it happens to lie across two lines of the cache.
#[inline(never)]
fn read_all(bytes: &[u8]) -> u64 {
    let mut all = [0; 8];
    for words in bytes.chunks_exact(64) {
        for (all, word) in all.iter_mut().zip(words.chunks_exact(8)) {
            *all |= u64::from_le_bytes(word.try_into().expect("eight bytes"));
        }
    }
    all.into_iter().fold(0, |one, other| one | other)
}

/// One read of the state area.
pub fn time_read(prepared: &Prepared, areas: &mut Areas) -> Duration {
    prepared.restore(areas);
    time(|| read_all(black_box(areas.state.bytes())))
}

/// The memory part of the limit, on the areas of the core's own calls.
pub fn time_memory(case: &Case, prepared: &Prepared, areas: &mut Areas) -> Duration {
    prepared.restore(areas);
    let Areas { state, scratch, .. } = areas;
    time(|| {
        if case.memory != Memory::None {
            black_box(read_all(black_box(state.bytes())));
        }
        if case.memory == Memory::ReadAndCopied {
            black_box(scratch.bytes_mut()).copy_from_slice(black_box(state.bytes()));
            black_box(state.bytes_mut()).copy_from_slice(black_box(scratch.bytes()));
        }
    })
}

/// The tracker after the requests of a state, made in an order that is not the ids'.
fn filled(state: &State, maps: Maps) -> Option<Box<dyn Tracker>> {
    let mut tracker = tracker(maps, SETTINGS.timeout, SETTINGS.max_checks)?;
    let mut requests: Vec<_> = state.pending.iter().collect();
    requests.sort_by_cached_key(|(id, _)| {
        let mut hasher = DefaultHasher::new();
        id.hash(&mut hasher);
        hasher.finish()
    });
    for (id, request) in requests {
        set_clock(request.stamp);
        tracker.mark_requested(&[*id], request.peer, request.type_id);
    }
    Some(tracker)
}

/// The lists that rule 3 gets in this step.
fn listed(call: &Call) -> BTreeMap<TypeId, Vec<Id>> {
    let mut lists: BTreeMap<TypeId, Vec<Id>> = BTreeMap::new();
    for row in &call.view.rows {
        let Row::Present(places) = row else { continue };
        for place in places {
            lists.entry(place.type_id).or_default().push(place.id);
        }
    }
    if call.kind == kinds::ANNOUNCED {
        lists.insert(call.type_id, call.ids.clone());
    }
    lists
}

fn track(
    call: &Call,
    stalled: &HashSet<u64>,
    tracker: &mut dyn Tracker,
    lists: &BTreeMap<TypeId, Vec<Id>>,
) {
    match call.kind {
        kinds::RECEIVED => tracker.mark_received(&call.ids),
        kinds::EVICTED => tracker.schedule_rerequest(&call.ids),
        kinds::CHECK => {
            tracker.check_timeouts(call.gate.then_some((stalled, &call.peers[..])));
        }
        _ => {
            for (type_id, ids) in lists {
                let wanted = tracker.wanted(ids);
                tracker.mark_requested(&wanted, call.peer, *type_id);
            }
        }
    }
}

/// The tracker's operation on the round's data, where it has one and the original was found; and how many it leaves
/// pending.
pub fn time_tracker(case: &Case, prepared: &Prepared, maps: Maps) -> Option<(Duration, usize)> {
    if case.beside != Beside::Tracker {
        return None;
    }
    let mut tracker = filled(&prepared.state, maps)?;
    let call = prepared.call.clone();
    let lists = listed(&call);
    let stalled = prepared.state.stalled.iter().copied().collect();
    set_clock(call.clock);
    let took = time(|| track(&call, &stalled, tracker.as_mut(), &lists));
    Some((took, tracker.pending_count()))
}

/// The pairs that a question asks for, as plain Rust would find them.
fn pairs(state: &State, flag: u8) -> Vec<(TypeId, Id)> {
    let mut pairs: Vec<(TypeId, Id)> = if flag == 0 {
        let header = |id: &Id| (types::HEADER, *id);
        state.evicted.iter().map(header).collect()
    } else {
        let asked = state.pending.iter().filter(|(_, request)| {
            Some(request.peer) == state.sync_peer && request.type_id != types::TRANSACTION
        });
        asked.map(|(id, request)| (request.type_id, *id)).collect()
    };
    pairs.sort_unstable();
    pairs.dedup();
    pairs
}

/// Plain Rust on the same data, where the case has such.
pub fn time_plain(case: &Case, prepared: &Prepared) -> Option<Duration> {
    match (case.beside, case.entry) {
        (Beside::Pairs, Entry::Question(flag)) => {
            let state = prepared.state.clone();
            Some(time(|| pairs(&state, flag)))
        }
        (Beside::ImageTest, _) => Some(time(|| {
            let area = black_box(prepared.image.bytes());
            image::counts_fit(area)
                & image::mark_fits(area)
                & image::clocks_fit(area)
                & image::stalled_once(area)
                & image::ids_rise(area)
                & image::stamps_fit(area)
                & image::checks_fit(area)
                & image::high_bytes_fit(area)
                & image::unused_zero(area)
        })),
        _ => None,
    }
}
