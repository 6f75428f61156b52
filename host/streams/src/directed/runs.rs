//! Lists that are cut into requests of 400 (rule 3, F-4): of one request and of two, one id below and above, and the longest,
//! wherever a list is sent. Those of rule 4 are among the heights.

use super::delivery::request;
use crate::build::{id, ids, pending, syncing, Build, CASES};
use crate::Script;
use keeper_values::numbers::kinds;
use keeper_values::State;

const SIZES: [u16; 7] = [399, 400, 401, 799, 800, 801, 1_024];

/// Sends that fail. The Rust drops what is left of their batch, and goes on with the next.
const FAILS: [&[usize]; 3] = [&[], &[0], &[1]];

/// Announced, retried to one target, asked for again when the sync peer is lost; and fresh.
fn whole(scripts: &mut Vec<Script>) {
    for count in SIZES {
        for fails in FAILS {
            let name = format!("runs of {count}, failing {fails:?}");
            scripts.push(
                Build::begun(&name, CASES, 4)
                    .call(kinds::ANNOUNCED, |c| {
                        c.peer = 6;
                        c.type_id = 102;
                        c.ids = ids(1, count);
                        c.fails = fails.to_vec();
                    })
                    .at(10_000)
                    .call(kinds::CHECK, |c| {
                        c.peers = vec![6, 4];
                        c.fails = fails.to_vec();
                    })
                    .call(kinds::LOST_PEER, |c| {
                        c.peer = 4;
                        c.peers = vec![5];
                        c.fails = fails.to_vec();
                    })
                    .done(),
            );
            scripts.push(
                Build::begun(&format!("fresh: {name}"), CASES, 4)
                    .call(kinds::EVICTED, |c| c.ids = ids(1, count))
                    .call(kinds::CHECK, |c| {
                        c.peers = vec![6, 4];
                        c.fails = fails.to_vec();
                    })
                    .done(),
            );
        }
    }
    // One id over and over: sent as often, entered once.
    scripts.push(
        Build::begun("runs of one id 401 times", CASES, 4)
            .announce(6, 102, vec![id(1); 401])
            .done(),
    );
}

/// What is stored or pending is dropped first, and what is left is cut.
fn after_drops(scripts: &mut Vec<Script>) {
    for count in [399, 400, 401, 799, 800, 801, 1_022] {
        let name = format!("runs of {count} behind a stored id and a pending one");
        scripts.push(
            Build::begun(&name, CASES, 4)
                .announce(4, 102, vec![id(2)])
                .call(kinds::ANNOUNCED, |c| {
                    c.peer = 6;
                    c.type_id = 102;
                    c.ids = ids(1, count + 2);
                    c.stored = [(102, id(1))].into();
                })
                .done(),
        );
    }
}

/// Two targets and two types, each batch of more than one run.
fn two_targets(scripts: &mut Vec<Script>) {
    let mut mixed = pending(1, 401, request(4, 102, 0, 0));
    mixed.extend(pending(500, 401, request(5, 101, 0, 0)));
    mixed.extend(pending(1_000, 222, request(4, 101, 0, 0)));
    for fails in [vec![], vec![0, 2]] {
        let state = State {
            pending: mixed.clone(),
            ..syncing(CASES, 0)
        };
        scripts.push(
            Build::put("retries of two targets", state)
                .at(10_000)
                .call(kinds::CHECK, |c| {
                    c.peers = vec![4, 5];
                    c.fails = fails;
                })
                .done(),
        );
    }
}

/// Headers retried and fresh ones, to one peer in one check: two batches, and the second is counted from its own first id.
fn retried_and_fresh(scripts: &mut Vec<Script>) {
    for (retried, fresh) in [
        (1, 400),
        (399, 400),
        (400, 399),
        (400, 400),
        (400, 401),
        (400, 624),
        (401, 400),
        (223, 799),
        (223, 800),
        (223, 801),
        (799, 223),
        (800, 223),
        (801, 223),
    ] {
        for fails in FAILS {
            let name = format!(
                "headers to one peer, {retried} retried and {fresh} fresh, failing {fails:?}"
            );
            scripts.push(
                Build::begun(&name, CASES, 4)
                    .announce(5, 101, ids(1, retried))
                    .call(kinds::EVICTED, |c| c.ids = ids(2_001, fresh))
                    .at(10_000)
                    .call(kinds::CHECK, |c| {
                        c.peers = vec![4];
                        c.fails = fails.to_vec();
                    })
                    .done(),
            );
        }
    }
}

/// A lost sync peer's ids of three types: three batches to one peer.
fn lost_by_types(scripts: &mut Vec<Script>) {
    for counts in [
        [1, 400, 401],
        [399, 400, 225],
        [400, 401, 223],
        [401, 399, 224],
        [801, 1, 222],
    ] {
        for fails in FAILS {
            let name = format!("lost with {counts:?} ids of three types, failing {fails:?}");
            let mut build = Build::begun(&name, CASES, 4);
            let types = [(101, 1), (102, 1_001), (104, 2_001)];
            for ((type_id, first), count) in types.into_iter().zip(counts) {
                build = build.announce(4, type_id, ids(first, count));
            }
            scripts.push(
                build
                    .call(kinds::LOST_PEER, |c| {
                        c.peer = 4;
                        c.peers = vec![5];
                        c.fails = fails.to_vec();
                    })
                    .done(),
            );
        }
    }
}

pub fn scripts() -> Vec<Script> {
    let mut scripts = Vec::new();
    whole(&mut scripts);
    two_targets(&mut scripts);
    after_drops(&mut scripts);
    retried_and_fresh(&mut scripts);
    lost_by_types(&mut scripts);
    scripts
}
