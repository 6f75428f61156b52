//! Stalled peers in random streams. In every other stream they stall often, stay stalled, and are listed at checks with
//! expired ids. They are drawn apart, so that what is drawn for the rest of a stream does not depend on it.

use crate::rng::Rng;
use crate::world::World;
use keeper_values::numbers::kinds;
use keeper_values::{Call, Mode, State};

/// Between the seeds of the two sequences that a stream is drawn from.
const APART: u64 = 0x7374_616c;

pub struct Stalling {
    rng: Rng,
    often: bool,
}

impl Stalling {
    pub fn new(seed: u64) -> Self {
        let mut rng = Rng::new(seed ^ APART);
        let often = rng.once_in(2);
        Self { rng, often }
    }

    /// Lets any peers be stalled in a state to put in.
    pub fn put(&mut self, world: &World, state: &mut State) {
        if self.often && !world.crowded {
            state.stalled.clone_from(&world.peers);
            state.stalled.retain(|_| self.rng.once_in(2));
        }
    }

    /// Turns a call into one that lets a peer stall, keeps the stalled set, or has to choose whom to ask.
    pub fn turn(&mut self, world: &World, state: &State, call: &mut Call) {
        let rng = &mut self.rng;
        if !self.often || rng.once_in(3) {
            return;
        }
        match call.kind {
            // Where all listed peers are stalled, the set is emptied.
            kinds::PICK if call.peers.len() < 128 => call.peers.push(world.peer(rng)),
            kinds::PROGRESS | kinds::SYNC_INFO if !state.stalled.is_empty() => {
                call.kind = kinds::CHECK;
            }
            kinds::OTHER_MESSAGE | kinds::SCHEDULED_TICK if state.mode == Mode::Syncing => {
                call.kind = kinds::SCHEDULED_TICK;
                call.clock = after(state, state.last_progress, state.settings.stall_timeout)
                    .saturating_add(1);
            }
            _ => {}
        }
        if call.kind == kinds::CHECK {
            call.peers = listed(rng, world, state);
            if let Some(stamp) = state.pending.values().map(|r| r.stamp).min() {
                call.clock = after(state, stamp, state.settings.timeout);
            }
        }
    }
}

/// The clock at which so much time has passed, or the last one.
fn after(state: &State, from: u64, time: u32) -> u64 {
    from.saturating_add(u64::from(time)).max(state.last_clock)
}

/// Peers for a check: stalled ones, those that ids are pending from, any; in whatever order, and some more than once.
fn listed(rng: &mut Rng, world: &World, state: &State) -> Vec<u64> {
    let asked: Vec<u64> = state.pending.values().map(|r| r.peer).collect();
    let mut pools = vec![&world.peers, &state.stalled, &asked];
    pools.retain(|pool| !pool.is_empty());
    let length = rng.range(1, 5);
    let peer = |_| {
        let pool = rng.pick(&pools);
        rng.pick(pool)
    };
    (0..length).map(peer).collect()
}
