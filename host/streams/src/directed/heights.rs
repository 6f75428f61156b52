//! Rules 4 and 5: windows, gaps, rows that a view lacks, the top of the range.

use crate::build::{id, missing, place, syncing, Build, CASES, SYNC_PEER};
use crate::Script;
use keeper_values::numbers::kinds;
use keeper_values::{Mode, Place, Row, State, View};

const RUNS_RULE_4: [u8; 4] = [
    kinds::PROGRESS,
    kinds::REORG,
    kinds::SECTION_TICK,
    kinds::ANNOUNCED,
];

fn from(downloaded: u32, mode: Mode) -> State {
    State {
        mode,
        downloaded,
        ..syncing(CASES, 0)
    }
}

fn mode_of(kind: u8) -> Mode {
    if kind == kinds::SECTION_TICK {
        Mode::Synced
    } else {
        Mode::Syncing
    }
}

/// Windows around 192 heights, with views that reach so far or one row less.
fn windows(scripts: &mut Vec<Script>) {
    for kind in RUNS_RULE_4 {
        for (downloaded, height) in [
            (0_u32, 500_u32),
            (400, 500),
            (0, 191),
            (0, 192),
            (0, 193),
            (7, 7),
            (8, 7),
        ] {
            let end = height.min(downloaded + 192);
            for rows in [end.saturating_sub(downloaded), 500] {
                for less in [0, 1] {
                    let name =
                        format!("window {downloaded} to {height}, {rows} - {less}, kind {kind}");
                    scripts.push(
                        Build::put(&name, from(downloaded, mode_of(kind)))
                            .call(kind, |c| {
                                c.peer = SYNC_PEER;
                                c.type_id = 101;
                                c.fork = u32::MAX;
                                c.height = height;
                                c.peers = vec![6, 4];
                                c.view = missing(downloaded + 1, rows.saturating_sub(less));
                            })
                            .done(),
                    );
                }
            }
        }
        // With nobody listed no height is read; behind a shut gate all are.
        for (gate, peers, rows) in [
            (true, vec![], 0),
            (false, vec![4], 1),
            (false, vec![4], 2),
            (true, vec![4], 1),
        ] {
            let name = format!("window of 2, gate {gate}, {peers:?}, {rows} rows, kind {kind}");
            scripts.push(
                Build::put(&name, from(5, mode_of(kind)))
                    .call(kind, |c| {
                        c.peer = SYNC_PEER;
                        c.type_id = 101;
                        c.gate = gate;
                        c.fork = u32::MAX;
                        c.height = 7;
                        c.peers = peers;
                        // Rule 5, where it runs, stops at the first row.
                        c.view = missing(6, rows.max(u32::from(kind != kinds::PROGRESS)));
                    })
                    .done(),
            );
        }
    }
}

/// Windows that lack three sections of one type at a height: a list of more ids than one request carries.
fn windows_of_one_type(scripts: &mut Vec<Script>) {
    for count in [399, 400, 401, 576] {
        let places: Vec<Place> = (1..=count)
            .map(|number| place(102, number, false))
            .collect();
        let rows = places.chunks(3).map(|row| Row::Present(row.to_vec()));
        let view = View {
            first: 1,
            rows: rows.collect(),
        };
        for kind in RUNS_RULE_4 {
            let name = format!("window of {count} sections of one type, kind {kind}");
            scripts.push(
                Build::put(&name, from(0, mode_of(kind)))
                    .call(kind, |c| {
                        c.peer = SYNC_PEER;
                        c.type_id = 101;
                        c.height = view.rows.len() as u32;
                        c.peers = vec![6, 4];
                        c.view = view.clone();
                    })
                    .done(),
            );
        }
    }
}

/// A window of which only the first and the last heights lack a section; where rule 5 runs, it passes height 1 first.
fn window_edge(scripts: &mut Vec<Script>) {
    let mut view = View {
        first: 1,
        rows: vec![Row::Present(vec![]); 194],
    };
    for height in [2, 191, 192, 193, 194] {
        view.rows[height - 1] = Row::Present(vec![place(102, height as u16, false)]);
    }
    for kind in RUNS_RULE_4 {
        scripts.push(
            Build::put(
                &format!("window's edge, kind {kind}"),
                from(0, mode_of(kind)),
            )
            .call(kind, |c| {
                c.peer = SYNC_PEER;
                c.type_id = 101;
                c.fork = 7;
                c.height = 300;
                c.peers = vec![6];
                c.view = view.clone();
            })
            .done(),
        );
    }
}

/// Rule 5 over rows that are passed, and the kinds of row that stop it.
fn advances(scripts: &mut Vec<Script>) {
    let passed = [
        Row::Present(vec![]),
        Row::Present(vec![place(102, 1, true)]),
        Row::Present(vec![
            place(102, 2, true),
            place(104, 3, true),
            place(108, 4, true),
        ]),
    ];
    let stops = [
        Row::Absent,
        Row::Present(vec![place(102, 5, false)]),
        Row::Present(vec![
            place(102, 6, true),
            place(104, 7, true),
            place(108, 8, false),
        ]),
    ];
    for stop in &stops {
        for kind in [
            kinds::START,
            kinds::RECEIVED,
            kinds::CHECK,
            kinds::SCHEDULED_TICK,
            kinds::SECTION_TICK,
            kinds::REORG,
        ] {
            for mode in [Mode::New, Mode::Syncing, Mode::Synced] {
                for (height, rows) in [(0, 4), (12, 4), (13, 3), (14, 4), (14, 3), (20, 5)] {
                    let name = format!(
                        "advance, kind {kind}, {}, {height}, {rows} rows",
                        mode.name()
                    );
                    let mut all = passed.to_vec();
                    all.push(stop.clone());
                    all.push(Row::Present(vec![place(102, 9, false)]));
                    all.truncate(rows);
                    let state = State {
                        sync_peer: mode.has_sync_peer().then_some(4),
                        ..from(10, mode)
                    };
                    scripts.push(
                        Build::put(&name, state)
                            .call(kind, |c| {
                                c.height = height;
                                c.fork = 10;
                                c.peers = vec![5];
                                c.view = View {
                                    first: 11,
                                    rows: all,
                                };
                            })
                            .done(),
                    );
                }
            }
        }
    }
}

/// Reorgs below, at and above the downloaded height; pending is purged and asked for anew.
fn reorgs(scripts: &mut Vec<Script>) {
    for fork in [0, 2, 3, 4, u32::MAX] {
        for mode in [Mode::Syncing, Mode::Synced] {
            for gate in [true, false] {
                let name = format!("reorg to {fork}, {}, gate {gate}", mode.name());
                scripts.push(
                    Build::put(&name, from(3, mode))
                        .announce(6, 102, vec![id(1), id(4), id(5), id(77)])
                        .call(kinds::EVICTED, |c| c.ids = vec![id(5), id(9)])
                        .call(kinds::REORG, |c| {
                            c.fork = fork;
                            c.height = 6;
                            c.gate = gate;
                            c.peers = vec![5, 6];
                            c.view = missing(1, 6);
                        })
                        .check(&[5])
                        .done(),
                );
            }
        }
    }
}

/// Heights at 2^32 - 1. Some of these make a sum of the Rust overflow.
fn top(scripts: &mut Vec<Script>) {
    let top = u32::MAX;
    let rows = |first: u32, stored: bool| View {
        first,
        rows: (first..=top)
            .map(|height| Row::Present(vec![place(102, height as u16, stored)]))
            .collect(),
    };
    for downloaded in [top - 193, top - 192, top - 191, top - 1, top] {
        for stored in [true, false] {
            for kind in [kinds::PROGRESS, kinds::REORG, kinds::RECEIVED, kinds::CHECK] {
                for height in [top - 1, top] {
                    let name =
                        format!("top, {downloaded} to {height}, stored {stored}, kind {kind}");
                    scripts.push(
                        Build::put(&name, from(downloaded, Mode::Syncing))
                            .call(kind, |c| {
                                c.height = height;
                                c.fork = top;
                                c.peers = vec![5];
                                c.view = rows(downloaded.saturating_add(1), stored);
                            })
                            .done(),
                    );
                }
            }
        }
    }
    for peer in [4, 6] {
        for tip in [top - 1, top] {
            scripts.push(
                Build::put(
                    &format!("tip {tip} of {peer} at the top"),
                    from(top, Mode::Syncing),
                )
                .tip(peer, top, tip)
                .tip(peer, top - 1, tip)
                .tip(peer, top - 2, tip)
                .done(),
            );
        }
    }
    let wrapping = State {
        sends_counted: top,
        ..from(0, Mode::Syncing)
    };
    scripts.push(
        Build::put("sends counted at the top", wrapping)
            .call(kinds::SCHEDULED_TICK, |_| {})
            .call(kinds::SCHEDULED_TICK, |_| {})
            .done(),
    );
}

pub fn scripts() -> Vec<Script> {
    let mut scripts = Vec::new();
    windows(&mut scripts);
    windows_of_one_type(&mut scripts);
    window_edge(&mut scripts);
    advances(&mut scripts);
    reorgs(&mut scripts);
    top(&mut scripts);
    scripts
}
