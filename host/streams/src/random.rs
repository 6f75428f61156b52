//! Random streams: the next call is drawn from a seed and from what the keeper holds.

use crate::rng::Rng;
use crate::stalling::Stalling;
use crate::world::World;
use crate::Opening;
use keeper_values::numbers::kinds;
use keeper_values::{Call, Id, Mode, Request, State, TypeId};
use std::collections::BTreeSet;

pub struct Random {
    rng: Rng,
    stalling: Stalling,
    world: World,
    opening: Opening,
    /// Calls in this stream.
    pub length: usize,
}

impl Random {
    pub fn new(seed: u64) -> Self {
        let mut rng = Rng::new(seed);
        let mut stalling = Stalling::new(seed);
        let clock = rng.pick(&[0, 0, 1_000, 1 << 40, u64::MAX - 5_000]);
        let height = match rng.below(12) {
            0 => u32::MAX - rng.below(400) as u32,
            1 => u32::MAX - rng.below(4) as u32,
            2 => rng.draw() as u32,
            _ => rng.below(6) as u32,
        };
        let world = World::new(&mut rng, height);
        let length = match rng.below(100) {
            0 => rng.range(400, 2_000),
            1..=9 => rng.range(80, 200),
            _ => rng.range(5, 50),
        } as usize;
        let opening = if world.crowded || rng.once_in(5) {
            let mut state = put_state(&mut rng, &world, clock, height);
            stalling.put(&world, &mut state);
            Opening::Put(Box::new(state))
        } else {
            Opening::Open {
                settings: world.settings,
                clock,
                height,
            }
        };
        Self {
            rng,
            stalling,
            world,
            opening,
            length,
        }
    }

    pub fn opening(&self) -> &Opening {
        &self.opening
    }

    /// Whether types of two bytes are met in it.
    pub fn is_wide(&self) -> bool {
        self.world.wide
    }

    /// The next call, given what the keeper holds.
    pub fn next(&mut self, state: &State) -> Call {
        let rng = &mut self.rng;
        let world = &mut self.world;
        world.drift(rng);
        let mut kind = kind(rng, state);
        if world.crowded && state.mode == Mode::Syncing && rng.once_in(2) {
            kind = kinds::SCHEDULED_TICK;
        }
        if rng.once_in(4) || world.chain_height < state.downloaded {
            world.chain_height = chain_height(rng, world.solid, state.downloaded);
        }
        let fork = match rng.below(6) {
            0 => rng.draw() as u32,
            1 => state.downloaded.saturating_add(1),
            _ => state.downloaded.saturating_sub(rng.below(5) as u32),
        };
        let mut first = state.downloaded.saturating_add(1);
        if kind == kinds::REORG {
            world.branch = rng.draw();
            first = first.min(fork.saturating_add(1));
        }
        let mut call = Call {
            kind,
            clock: clock(rng, state),
            gate: !rng.once_in(5),
            height: world.chain_height,
            peer: match (state.sync_peer, rng.below(2)) {
                (Some(peer), 0) => peer,
                _ => world.peer(rng),
            },
            type_id: world.type_id(rng),
            fork,
            parsed: !rng.once_in(6),
            has_tip: !rng.once_in(6),
            tip: tip(rng, world.chain_height),
            ids: ids(rng, world, state, kind),
            continuation: (0..continuation(rng)).map(|_| world.id(rng)).collect(),
            stored: stored(rng, world),
            peers: world.listed.clone(),
            view: world.view(rng, first),
            fails: fails(rng),
        };
        self.stalling.turn(world, state, &mut call);
        call
    }
}

/// A kind of this mode, or now and then any number.
fn kind(rng: &mut Rng, state: &State) -> u8 {
    if rng.once_in(60) {
        return rng.below(18) as u8;
    }
    match state.mode {
        Mode::New => kinds::START,
        Mode::Seeking if rng.once_in(30) => kinds::END_OF_STREAM,
        Mode::Seeking => kinds::PICK,
        Mode::Ended => rng.below(18) as u8,
        Mode::Syncing if state.entry_mark && rng.once_in(8) => kinds::SEND_FAILURE,
        Mode::Syncing | Mode::Synced => match rng.below(24) {
            0 => kinds::NEEDED,
            1 => kinds::REORG,
            2..=6 => kinds::ANNOUNCED,
            7..=9 => kinds::SYNC_INFO,
            10 => kinds::OTHER_MESSAGE,
            11 => kinds::LOST_PEER,
            12 | 13 => kinds::RECEIVED,
            14 | 15 => kinds::EVICTED,
            16 | 17 => kinds::PROGRESS,
            18..=20 => kinds::CHECK,
            21 => kinds::SCHEDULED_TICK,
            22 if state.mode == Mode::Synced => kinds::SECTION_TICK,
            22 => kinds::SCHEDULED_TICK,
            _ if rng.once_in(4) => kinds::END_OF_STREAM,
            _ => kinds::CHECK,
        },
    }
}

fn chain_height(rng: &mut Rng, solid: bool, downloaded: u32) -> u32 {
    match rng.below(30) {
        0 => 0,
        1 => u32::MAX,
        2 => downloaded.saturating_sub(1),
        3 => downloaded,
        _ if solid => downloaded.saturating_add(rng.range(180, 260) as u32),
        _ => downloaded.saturating_add(rng.below(8) as u32),
    }
}

/// A clock that stands still, steps to just around a limit, or jumps; now and then one that goes back.
fn clock(rng: &mut Rng, state: &State) -> u64 {
    let last = state.last_clock;
    if rng.once_in(120) {
        return last.saturating_sub(1 + rng.below(3));
    }
    let settings = state.settings;
    let (from, limit) = match rng.below(12) {
        0..=2 => return last,
        3..=5 => return last.saturating_add(rng.below(6)),
        6 => return last.saturating_add(rng.below(50)),
        7 | 8 => {
            let stamps: Vec<u64> = state.pending.values().map(|r| r.stamp).collect();
            let from = if stamps.is_empty() {
                last
            } else {
                rng.pick(&stamps)
            };
            (from, settings.timeout)
        }
        9 => (state.last_send, settings.min_sync_send_interval),
        10 => (state.last_progress, settings.stall_timeout),
        _ if rng.once_in(10) => (last, u32::MAX),
        _ => (last, settings.timeout),
    };
    let exact = from.saturating_add(u64::from(limit));
    let near = match rng.below(3) {
        0 => exact.saturating_sub(1),
        1 => exact,
        _ => exact.saturating_add(1),
    };
    near.max(last)
}

fn tip(rng: &mut Rng, height: u32) -> u32 {
    match rng.below(10) {
        0 => rng.draw() as u32,
        1 => u32::MAX,
        2 => 0,
        _ => height
            .saturating_add(rng.below(4) as u32)
            .saturating_sub(rng.below(2) as u32),
    }
}

fn ids(rng: &mut Rng, world: &World, state: &State, kind: u8) -> Vec<Id> {
    let length = match rng.below(40) {
        _ if kind == kinds::NEEDED && !rng.once_in(12) => 1,
        0..=5 => 0,
        6 if world.ids.len() > 200 => rng.pick(&[399, 400, 401, 799, 800, 801, 1_024]),
        7 if world.ids.len() > 200 => rng.range(100, 1_024) as usize,
        _ => rng.range(1, 8) as usize,
    };
    let pending: Vec<&Id> = state.pending.keys().collect();
    (0..length)
        .map(|_| {
            if !pending.is_empty() && rng.once_in(3) {
                *rng.pick(&pending)
            } else {
                world.id(rng)
            }
        })
        .collect()
}

fn continuation(rng: &mut Rng) -> u64 {
    match rng.below(12) {
        0..=5 => 0,
        6 if rng.once_in(20) => 400,
        _ => rng.range(1, 4),
    }
}

/// What is stored, as far as a list may say.
fn stored(rng: &mut Rng, world: &World) -> BTreeSet<(TypeId, Id)> {
    if world.agreeing || rng.once_in(2) {
        return world.stored.clone();
    }
    (0..rng.below(6))
        .map(|_| (world.type_id(rng), world.id(rng)))
        .collect()
}

fn fails(rng: &mut Rng) -> Vec<usize> {
    if !rng.once_in(5) {
        return Vec::new();
    }
    (0..6).filter(|_| rng.once_in(3)).collect()
}

/// A well-formed state, reachable or not. Both marks at once are left out: the Rust has no such place.
fn put_state(rng: &mut Rng, world: &World, clock: u64, height: u32) -> State {
    let mode = rng.pick(&[
        Mode::New,
        Mode::Seeking,
        Mode::Syncing,
        Mode::Syncing,
        Mode::Syncing,
        Mode::Synced,
        Mode::Synced,
    ]);
    let marks = if mode == Mode::Syncing {
        rng.below(3)
    } else {
        0
    };
    let settings = world.settings;
    let back = |rng: &mut Rng| {
        let limit = rng.pick(&[
            settings.timeout,
            settings.min_sync_send_interval,
            settings.stall_timeout,
        ]);
        let distance = rng.below(u64::from(limit).saturating_add(3).max(3));
        clock.saturating_sub(distance)
    };
    let full = rng.once_in(10);
    let pending = if full { world.ids.len() } else { 6 };
    let pending = (0..rng.below(pending as u64 + 1))
        .map(|_| {
            let type_id = world.type_id(rng);
            let most = if type_id == 2 {
                1
            } else {
                settings.max_checks.max(1)
            };
            let some = rng.below(u64::from(most)) as u32;
            let request = Request {
                peer: world.peer(rng),
                type_id,
                stamp: back(rng),
                checks: rng.pick(&[0, most - 1, some]),
            };
            (world.id(rng), request)
        })
        .take(1_024)
        .collect::<std::collections::BTreeMap<_, _>>();
    let room = 1_024 - pending.len() as u64;
    let evicted = if full && rng.once_in(2) {
        room.saturating_sub(rng.below(3))
    } else {
        rng.below(5).min(room)
    };
    let stalled = if world.crowded {
        rng.range(250, 256) as usize
    } else {
        rng.below(4) as usize
    };
    let mut peers = world.peers.clone();
    let spare = peers.len() - stalled.min(peers.len());
    peers.drain(..rng.index(spare + 1));
    peers.truncate(stalled);
    State {
        mode,
        progress_mark: marks == 1,
        entry_mark: marks == 2,
        last_clock: clock,
        settings,
        last_progress: back(rng),
        last_send: back(rng),
        sync_peer: mode.has_sync_peer().then(|| world.peer(rng)),
        sends_counted: rng.pick(&[0, 1, 7, u32::MAX - 1]),
        downloaded: height,
        known_tip: rng.pick(&[0, height, height.saturating_add(3), u32::MAX]),
        stalled: peers,
        pending,
        evicted: (0..evicted).map(|_| world.id(rng)).collect(),
    }
}
