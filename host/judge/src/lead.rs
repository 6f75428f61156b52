//! A state that a directed or random stream puts in, reached by steps instead, as nearly as they go: a pupil's keeper
//! is opened and led there. Stamps, peers and types are the state's; checks, marks and counts are what the steps leave.

use crate::stream::{Call, Opening};
use keeper_values::numbers::{kinds, types};
use keeper_values::{Arguments, Call as Values, Id, Mode, Request, State, TypeId};
use std::collections::BTreeMap;

/// Steps from an opening.
pub struct Lead {
    pub opening: Opening,
    pub calls: Vec<Call>,
    /// How much later than the state's own clock all of it is.
    pub shift: u64,
}

/// A sync peer for a state that has none, to enter ids with.
const ANY_PEER: u64 = 4;

/// An open gate, an empty chain, and else nothing.
fn step(kind: u8, clock: u64, fill: impl FnOnce(&mut Values)) -> Call {
    let mut call = Values {
        kind,
        clock,
        gate: true,
        ..Values::default()
    };
    fill(&mut call);
    Call::Step(Box::new(call.to_arguments()))
}

fn announced(kind: u8, clock: u64, peer: u64, type_id: TypeId, ids: Vec<Id>) -> Call {
    step(kind, clock, |call| {
        call.peer = peer;
        call.type_id = type_id;
        call.ids = ids;
    })
}

/// The pending ids by stamp, then peer and type, as they can be entered together.
fn groups(state: &State) -> BTreeMap<(u64, u64, TypeId), Vec<Id>> {
    let mut groups = BTreeMap::<_, Vec<Id>>::new();
    for (
        id,
        Request {
            peer,
            type_id,
            stamp,
            ..
        },
    ) in &state.pending
    {
        groups
            .entry((*stamp, *peer, *type_id))
            .or_default()
            .push(*id);
    }
    groups
}

/// Steps that enter these ids: an announcement, or for a type that announcements pass over one needed modifier each.
fn enter(clock: u64, peer: u64, type_id: TypeId, ids: Vec<Id>) -> Vec<Call> {
    if types::KNOWN.contains(&type_id) {
        return vec![announced(kinds::ANNOUNCED, clock, peer, type_id, ids)];
    }
    let needed = |id| announced(kinds::NEEDED, clock, peer, type_id, vec![id]);
    ids.into_iter().map(needed).collect()
}

pub fn lead(state: &State) -> Lead {
    let stamps = state.pending.values().map(|request| request.stamp);
    let first = stamps
        .min()
        .unwrap_or(state.last_clock)
        .min(state.last_clock);
    // Each stalled peer takes one stall, before the first stamp.
    let stall = u64::from(state.settings.stall_timeout) + 1;
    let before = stall.saturating_mul(state.stalled.len() as u64);
    let mut clock = first.saturating_sub(before);
    let shift = before.saturating_sub(first);
    let opening = Opening {
        settings: state.settings,
        clock,
        height: state.downloaded,
    };
    let mut calls = Vec::new();
    if state.mode == Mode::New {
        return Lead {
            opening,
            calls,
            shift,
        };
    }
    calls.push(step(kinds::START, clock, |_| {}));
    for peer in &state.stalled {
        calls.push(step(kinds::PICK, clock, |call| call.peers = vec![*peer]));
        clock = clock.saturating_add(stall);
        calls.push(step(kinds::SCHEDULED_TICK, clock, |_| {}));
    }
    let idle = state.pending.is_empty() && state.evicted.is_empty();
    if state.sync_peer.is_none() && idle {
        return Lead {
            opening,
            calls,
            shift,
        };
    }
    let peer = state.sync_peer.unwrap_or(ANY_PEER);
    calls.push(step(kinds::PICK, clock, |call| call.peers = vec![peer]));
    if state.mode == Mode::Synced {
        calls.push(announced(
            kinds::ANNOUNCED,
            clock,
            peer,
            types::HEADER,
            vec![],
        ));
    }
    if !state.evicted.is_empty() {
        let evicted = state.evicted.clone();
        calls.push(step(kinds::EVICTED, clock, |call| call.ids = evicted));
    }
    for ((stamp, peer, type_id), ids) in groups(state) {
        calls.extend(enter(stamp.saturating_add(shift), peer, type_id, ids));
    }
    if state.sync_peer.is_none() {
        let last = state.last_clock.saturating_add(shift);
        calls.push(step(kinds::END_OF_STREAM, last, |_| {}));
    }
    Lead {
        opening,
        calls,
        shift,
    }
}

/// The same call, so much later.
pub fn later(mut arguments: Arguments, shift: u64) -> Call {
    arguments.clock = arguments.clock.saturating_add(shift);
    Call::Step(Box::new(arguments))
}

#[cfg(test)]
mod tests {
    use super::lead;
    use crate::stream::Stream;
    use keeper_core::Core;
    use keeper_play::Player;
    use keeper_streams::{directed, Opening};
    use keeper_values::State;

    fn led(state: &State) -> State {
        let lead = lead(state);
        let stream = Stream {
            name: String::new(),
            opening: lead.opening,
            calls: lead.calls,
        };
        let mut player = Player::new(&Core);
        for line in stream.asked() {
            player.play(&line).expect("the core plays it");
        }
        player.read().expect("well formed")
    }

    #[test]
    fn states_of_directed_streams_are_reached() {
        let mut reached = 0;
        for script in directed::scripts() {
            let Opening::Put(state) = &script.opening else {
                continue;
            };
            let led = led(state);
            assert_eq!(led.mode, state.mode, "{}", script.name);
            assert_eq!(led.sync_peer, state.sync_peer, "{}", script.name);
            assert_eq!(led.downloaded, state.downloaded, "{}", script.name);
            assert_eq!(led.evicted, state.evicted, "{}", script.name);
            assert!(
                led.pending.keys().eq(state.pending.keys()),
                "{}",
                script.name
            );
            // A sync peer that is stalled already is no state of steps: picking it empties the set.
            if !state
                .sync_peer
                .is_some_and(|peer| state.stalled.contains(&peer))
            {
                assert_eq!(led.stalled, state.stalled, "{}", script.name);
            }
            reached += 1;
        }
        assert!(reached > 500);
    }
}
