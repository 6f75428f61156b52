//! F-6: types of two bytes, wherever a type stands. Numbers around 255 and 256, those that end in a known number's low byte
//! (257 to 614), the first of a test network (300), and the last.

use super::delivery::request;
use crate::build::{id, ids, place, syncing, Build, CASES, SYNC_PEER};
use crate::Script;
use keeper_values::numbers::{kinds, types};
use keeper_values::{Mode, Row, State, TypeId, View};

const WIDE: [TypeId; 12] = [
    255, 256, 257, 258, 300, 357, 358, 360, 364, 514, 614, 65_535,
];

const OTHER: u64 = SYNC_PEER + 1;

/// The smallest stream with a type that the Rust has not.
pub fn d4() -> Script {
    Build::begun("a needed modifier of type 300 (D-4)", CASES, SYNC_PEER)
        .call(kinds::NEEDED, |c| {
            c.type_id = 300;
            c.ids = ids(1, 1);
        })
        .done()
}

fn in_mode(mode: Mode) -> State {
    State {
        mode,
        ..syncing(CASES, 0)
    }
}

/// "No other type is requested from an announcement", and no list of another type is one of headers.
fn announced(scripts: &mut Vec<Script>) {
    for type_id in WIDE {
        for mode in [Mode::Syncing, Mode::Synced] {
            let name = format!("ids of type {type_id} announced in {}", mode.name());
            scripts.push(
                Build::put(&name, in_mode(mode))
                    .announce(SYNC_PEER, type_id, vec![])
                    .announce(SYNC_PEER, type_id, ids(1, 3))
                    .announce(OTHER, type_id, ids(1, 3))
                    .call(kinds::OTHER_MESSAGE, |c| c.type_id = type_id)
                    .announce(OTHER, types::BLOCK_TRANSACTIONS, ids(2, 1))
                    .done(),
            );
        }
    }
}

/// A needed modifier is asked for whatever its type. A stored pair counts for its own type alone.
fn needed(scripts: &mut Vec<Script>) {
    for type_id in WIDE {
        let needed = |build: Build, stored: &[TypeId]| {
            build.call(kinds::NEEDED, |c| {
                c.type_id = type_id;
                c.ids = ids(1, 1);
                c.stored = stored.iter().map(|type_id| (*type_id, id(1))).collect();
            })
        };
        let begun = |name: &str| {
            let name = format!("a needed modifier of type {type_id}, {name}");
            Build::put(&name, in_mode(Mode::Syncing))
        };
        let low = type_id & 255;
        let others = [
            low,
            type_id ^ 256,
            type_id ^ (1 << 15),
            type_id.swap_bytes(),
        ];
        let others: Vec<TypeId> = others.into_iter().filter(|t| *t != type_id).collect();
        let build = needed(needed(begun("asked for"), &[]), &[]);
        scripts.push(
            build
                .call(kinds::RECEIVED, |c| c.ids = ids(1, 1))
                .announce(OTHER, types::HEADER, ids(1, 1))
                .done(),
        );
        scripts.push(needed(begun("stored"), &[type_id]).done());
        scripts.push(needed(begun("stored as others"), &others).done());
        if low != type_id {
            scripts.push(needed(begun("its low byte stored"), &[low]).done());
        }
    }
}

/// A known type, and a stored pair of one that ends in the same low byte.
fn known(scripts: &mut Vec<Script>) {
    for type_id in types::KNOWN {
        let stored = |types: &[TypeId]| types.iter().map(|type_id| (*type_id, id(1))).collect();
        let build = Build::put(
            &format!("type {type_id}, and {} stored", type_id + 256),
            in_mode(Mode::Synced),
        );
        let announced = |build: Build, types: &[TypeId]| {
            build.call(kinds::ANNOUNCED, |c| {
                c.peer = OTHER;
                c.type_id = type_id;
                c.ids = ids(1, 1);
                c.stored = stored(types);
            })
        };
        let others = [type_id + 256, type_id + 512, type_id.swap_bytes()];
        let mut all = others.to_vec();
        all.push(type_id);
        scripts.push(announced(announced(build, &all), &others).done());
    }
    // A fresh id is asked for as a header, unless it is stored as one.
    let evicted = State {
        evicted: ids(1, 3),
        ..in_mode(Mode::Synced)
    };
    scripts.push(
        Build::put("fresh ids, one stored as a header", evicted)
            .call(kinds::CHECK, |c| {
                c.peers = vec![OTHER];
                c.stored = [(357, id(1)), (101, id(2)), (25_856, id(3))].into();
            })
            .done(),
    );
}

/// Types in an order that is none of theirs by either byte.
const MIXED: [TypeId; 12] = [256, 255, 300, 102, 65_535, 258, 257, 358, 511, 3, 512, 357];

/// "Lost sync peer with types 256, 255, 300, 102: batches 102, 255, 256, 300."
fn lost(scripts: &mut Vec<Script>) {
    for (name, owed) in [("four", &MIXED[..4]), ("twelve", &MIXED[..])] {
        let pending = |type_ids: &[TypeId]| {
            let numbered = type_ids.iter().zip(1..);
            let record = |(type_id, number): (&TypeId, u16)| {
                (id(number), request(SYNC_PEER, *type_id, 0, 0))
            };
            numbered.map(record).collect()
        };
        let state = State {
            pending: pending(owed),
            ..in_mode(Mode::Syncing)
        };
        for (way, stored) in [
            ("", vec![]),
            (", one stored", vec![(256, id(1)), (0, id(1))]),
        ] {
            let lost = Build::put(
                &format!("a lost sync peer with {name} types{way}"),
                state.clone(),
            );
            scripts.push(
                lost.call(kinds::LOST_PEER, |c| {
                    c.peer = SYNC_PEER;
                    c.peers = vec![9, OTHER];
                    c.stored = stored.into_iter().collect();
                })
                .done(),
            );
        }
    }
    let mut both = in_mode(Mode::Syncing);
    both.pending = [(2, 1), (258, 2), (514, 3)]
        .map(|(type_id, number)| (id(number), request(SYNC_PEER, type_id, 0, 0)))
        .into();
    scripts.push(
        Build::put("a lost sync peer with 2, 258 and 514", both)
            .call(kinds::LOST_PEER, |c| {
                c.peer = SYNC_PEER;
                c.peers = vec![9];
            })
            .done(),
    );
}

/// Retries by target and by the whole type; 2 is forgotten, 258 given up.
fn checks(scripts: &mut Vec<Script>) {
    for (name, peers) in [
        ("to others", vec![6, OTHER]),
        ("back to the failed", vec![]),
    ] {
        let mut state = in_mode(Mode::Synced);
        for (type_id, number) in MIXED.into_iter().zip(1..) {
            let peer = if number % 3 == 0 { 6 } else { OTHER };
            state
                .pending
                .insert(id(number), request(peer, type_id, 0, 0));
        }
        scripts.push(
            Build::put(&format!("twelve types retried {name}"), state)
                .at(10_000)
                .check(&peers)
                .at(20_000)
                .check(&peers)
                .done(),
        );
    }
    for type_id in [2, 258, 512, 514, 65_282] {
        for max_checks in [0, 1, 2] {
            let mut state = in_mode(Mode::Synced);
            state.settings.max_checks = max_checks;
            state.pending = [(id(1), request(OTHER, type_id, 0, 0))].into();
            let name = format!("type {type_id} expires, limit {max_checks}");
            scripts.push(
                Build::put(&name, state)
                    .at(9_999)
                    .check(&[6])
                    .at(10_000)
                    .check(&[6])
                    .at(20_000)
                    .check(&[6])
                    .done(),
            );
        }
    }
}

/// A window whose sections a test network numbers itself, and one with every kind of number.
fn windows(scripts: &mut Vec<Script>) {
    let rows = |numbers: &[TypeId]| {
        let mut next = 0;
        let mut row = |type_ids: &[TypeId]| {
            let places = type_ids.iter().map(|type_id| {
                next += 1;
                place(*type_id, next, false)
            });
            Row::Present(places.collect())
        };
        numbers.chunks(3).map(&mut row).collect::<Vec<Row>>()
    };
    for (name, numbers) in [
        ("sections from 300", &[300, 301, 302, 302, 300, 301][..]),
        ("sections of twelve types", &MIXED),
        ("sections of wide types", &WIDE),
    ] {
        let view = View {
            first: 1,
            rows: rows(numbers),
        };
        for mode in [Mode::Syncing, Mode::Synced] {
            let progress = |build: Build, stored: bool| {
                build.call(kinds::PROGRESS, |c| {
                    c.height = view.rows.len() as u32;
                    c.peers = vec![OTHER];
                    c.view = view.clone();
                    for row in &mut c.view.rows[..1] {
                        if let Row::Present(places) = row {
                            places.iter_mut().for_each(|place| place.stored = stored);
                        }
                    }
                })
            };
            let begun = Build::put(&format!("{name} in {}", mode.name()), in_mode(mode));
            let asked = progress(progress(begun, false), true);
            scripts.push(
                asked
                    .call(kinds::RECEIVED, |c| {
                        c.height = view.rows.len() as u32;
                        c.ids = ids(1, 3);
                        c.view = view.clone();
                    })
                    .done(),
            );
        }
    }
}

pub fn scripts() -> Vec<Script> {
    let mut scripts = vec![d4()];
    announced(&mut scripts);
    needed(&mut scripts);
    known(&mut scripts);
    lost(&mut scripts);
    checks(&mut scripts);
    windows(&mut scripts);
    scripts
}
