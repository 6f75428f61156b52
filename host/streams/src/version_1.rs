//! The calls that led to the images of `fixed/version-1`, which the core of version 0.6.0 wrote: one stream for each image,
//! under its name. As values they mean the same in every version of the forms.

use crate::build::{ids, missing, Build};
use crate::Script;
use keeper_values::numbers::kinds;
use keeper_values::Settings;

const SETTINGS: Settings = Settings {
    timeout: 10_000,
    max_checks: 5,
    min_sync_send_interval: 200,
    stall_timeout: 60_000,
};

const START: u64 = 1 << 40;
/// The sync peer; those that stall before it have other numbers.
const PEER: u64 = 7;

fn opened(name: &str) -> Build {
    Build::open(name, SETTINGS, START, 5)
}

fn seeking(name: &str) -> Build {
    opened(name).call(kinds::START, |c| c.height = 5)
}

fn picked(build: Build, clock: u64, peer: u64) -> Build {
    build.at(clock).call(kinds::PICK, |c| c.peers = vec![peer])
}

fn syncing(name: &str) -> Build {
    picked(seeking(name), START + 1_000, PEER)
}

/// What leads from syncing to synced.
fn caught_up(build: Build) -> Build {
    build.announce(PEER, 101, vec![])
}

/// So many peers that stalled, one after the other, before the one that is synced from.
fn stalled(name: &str, count: u64) -> (Build, u64) {
    let (mut build, mut clock) = (seeking(name), START);
    for peer in 1..=count {
        build = picked(build, clock, peer << 40 | peer << 8);
        clock += 60_001;
        build = build.at(clock).call(kinds::SCHEDULED_TICK, |_| {});
    }
    (picked(build, clock, PEER), clock)
}

/// Syncing with so many peers stalled, ids of all known types and of others pending, with checks and stamps that differ, and
/// evicted ids of which some stand twice: 1,024 of both together.
fn full(name: &str, stalled_peers: u64, evicted: u16) -> (Build, u64) {
    let (build, clock) = stalled(name, stalled_peers);
    let mut build = build.tip(PEER, 5, 6);
    let mut next = 1;
    for type_id in [101, 102, 104, 108] {
        build = build.announce(PEER, type_id, ids(next, 4));
        next += 4;
    }
    let needed = |build: Build, type_id, number| {
        build.call(kinds::NEEDED, |c| {
            c.type_id = type_id;
            c.ids = ids(number, 1);
        })
    };
    build = needed(needed(build, 0, next), 103, next + 1);
    // Retried, at another peer.
    let clock = clock + 10_000;
    build = build.at(clock).check(&[PEER, 9]).at(clock + 1);
    build = needed(needed(build, 3, next + 2), 255, next + 3);
    next += 4;
    for (peer, type_id, count) in [(u64::MAX, 2, 20), (PEER, 2, 5), (PEER, 108, 6)] {
        build = build.announce(peer, type_id, ids(next, count));
        next += count;
    }
    build = build.announce(8, 102, ids(next, 1_024 - evicted - (next - 1)));
    let twice = evicted / 3;
    let lists = [ids(2_000, evicted - twice), ids(2_000, twice)];
    for list in lists {
        build = build.call(kinds::EVICTED, |c| c.ids = list);
    }
    (build, clock + 1)
}

/// One for each image.
pub fn scripts() -> Vec<Script> {
    let (long_stalled, clock) = full("seeking-full", 255, 0);
    let (ended, end) = full("ended-full", 3, 1_000 - 30);
    let ended = ended.at(end + 60_001).call(kinds::SCHEDULED_TICK, |_| {});
    let builds = [
        opened("new"),
        seeking("seeking-empty"),
        long_stalled
            .at(clock + 60_001)
            .call(kinds::SCHEDULED_TICK, |_| {}),
        syncing("syncing-entry"),
        syncing("syncing-empty")
            .at(START + 1_100)
            .call(kinds::PROGRESS, |c| {
                c.height = 7;
                c.view = missing(6, 2);
            }),
        full("syncing-full", 256, 324).0,
        caught_up(syncing("synced-empty").tip(PEER, 5, 6)),
        caught_up(full("synced-full", 256, 900).0),
        seeking("ended-empty").call(kinds::END_OF_STREAM, |_| {}),
        ended.call(kinds::END_OF_STREAM, |_| {}),
    ];
    builds.into_iter().map(Build::done).collect()
}
