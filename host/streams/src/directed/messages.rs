//! Rules 2, 3, 7 and 8: messages, control events, the throttle.

use crate::build::{id, ids, syncing, Build, CASES, SYNC_PEER};
use crate::Script;
use keeper_values::numbers::kinds;
use keeper_values::{Mode, Request, Row, Settings, State, View};

/// Each type, empty, of one id, pending, stored, twice in a list.
fn announcements(scripts: &mut Vec<Script>) {
    for type_id in [0, 1, 2, 3, 100, 101, 102, 103, 104, 105, 107, 108, 109, 255] {
        for gate in [true, false] {
            for synced in [true, false] {
                let name = format!("announced {type_id}, gate {gate}, synced {synced}");
                let build = if synced {
                    Build::synced(&name, CASES, 4)
                } else {
                    Build::begun(&name, CASES, 4)
                };
                let build = build.call(kinds::ANNOUNCED, |c| {
                    c.peer = 6;
                    c.type_id = type_id;
                    c.gate = gate;
                    c.ids = vec![id(3), id(1), id(3), id(2)];
                    c.stored = [(type_id, id(2)), (type_id.wrapping_add(1), id(1))].into();
                });
                scripts.push(
                    build
                        .at(5)
                        .announce(4, 102, ids(1, 4))
                        .announce(4, 101, ids(1, 4))
                        .call(kinds::NEEDED, |c| {
                            c.type_id = type_id;
                            c.ids = ids(9, 1);
                            c.gate = gate;
                            c.stored = [(101, id(9))].into();
                            c.peers = vec![7];
                        })
                        .announce(6, type_id, vec![])
                        .announce(4, type_id, vec![])
                        .call(kinds::OTHER_MESSAGE, |c| {
                            c.peer = 6;
                            c.type_id = type_id;
                            c.ids = ids(20, 1);
                        })
                        .done(),
                );
            }
        }
    }
}

/// Tips around ours, from the sync peer and from another, in both modes.
fn tips(scripts: &mut Vec<Script>) {
    for ours in [0, 1, 50] {
        for tip in [0, 1, 2, 3, 49, 50, 51, 52, u32::MAX] {
            for peer in [4, 6] {
                for synced in [true, false] {
                    for continuation in [0, 2] {
                        let name = format!(
                            "ours {ours}, tip {tip} of {peer}, synced {synced}, continuation {continuation}"
                        );
                        let state = State {
                            mode: if synced { Mode::Synced } else { Mode::Syncing },
                            downloaded: ours,
                            known_tip: 50,
                            stalled: vec![9],
                            last_send: 0,
                            last_progress: 3,
                            ..syncing(CASES, 10)
                        };
                        scripts.push(
                            Build::put(&name, state)
                                .call(kinds::SYNC_INFO, |c| {
                                    c.peer = peer;
                                    c.height = ours;
                                    c.parsed = true;
                                    c.has_tip = true;
                                    c.tip = tip;
                                    c.continuation = ids(1, continuation);
                                })
                                .call(kinds::SEND_FAILURE, |_| {})
                                .done(),
                        );
                    }
                }
            }
        }
    }
}

/// Sync infos that could not be parsed or name no tip.
fn without_tip(scripts: &mut Vec<Script>) {
    for parsed in [true, false] {
        for has_tip in [true, false] {
            for height in [0, 7] {
                for interval in [0, 5] {
                    let settings = Settings {
                        min_sync_send_interval: interval,
                        ..CASES
                    };
                    let name = format!("parsed {parsed}, tip {has_tip}, ours {height}, {interval}");
                    scripts.push(
                        Build::begun(&name, settings, 4)
                            .at(4)
                            .call(kinds::SYNC_INFO, |c| {
                                c.peer = 6;
                                c.height = height;
                                c.parsed = parsed;
                                c.has_tip = has_tip;
                                c.tip = height;
                                c.continuation = ids(1, 2);
                                c.fails = vec![0];
                            })
                            .at(5)
                            .call(kinds::SYNC_INFO, |c| {
                                c.peer = 4;
                                c.height = height;
                                c.parsed = parsed;
                                c.has_tip = has_tip;
                                c.tip = 40;
                                c.continuation = ids(1, 400);
                            })
                            .done(),
                    );
                }
            }
        }
    }
}

/// The throttle to the millisecond, and the one send that progress may make.
fn throttle(scripts: &mut Vec<Script>) {
    let settings = Settings {
        min_sync_send_interval: 200,
        stall_timeout: 500,
        ..CASES
    };
    for clock in [199, 200, 201] {
        scripts.push(
            Build::open(&format!("throttle at {clock}"), settings, 0, 0)
                .call(kinds::START, |_| {})
                .at(clock)
                .call(kinds::PICK, |c| c.peers = vec![4])
                .call(kinds::SEND_FAILURE, |_| {})
                .at(clock + 199)
                .call(kinds::PROGRESS, |_| {})
                .at(clock + 200)
                .call(kinds::PROGRESS, |_| {})
                .call(kinds::SCHEDULED_TICK, |c| c.fails = vec![0])
                .at(clock + 399)
                .call(kinds::PROGRESS, |_| {})
                .at(clock + 400)
                .call(kinds::PROGRESS, |_| {})
                .at(clock + 600)
                .call(kinds::SCHEDULED_TICK, |_| {})
                .at(clock + 800)
                .call(kinds::PROGRESS, |_| {})
                .at(clock + 1_000)
                .tip(6, 3, 5)
                .call(kinds::PROGRESS, |_| {})
                .at(clock + 1_200)
                .call(kinds::PROGRESS, |_| {})
                .done(),
        );
    }
}

/// A send failure right after an entry, after a refused step, and too late.
fn failures(scripts: &mut Vec<Script>) {
    for between in [0, 1, 2] {
        let mut build = Build::begun(&format!("send failure, {between}"), CASES, 4)
            .announce(4, 102, ids(1, 2))
            .tip(6, 3, 5);
        if between == 1 {
            build = build.call(kinds::SECTION_TICK, |_| {});
        }
        if between == 2 {
            build = build.call(kinds::OTHER_MESSAGE, |_| {});
        }
        scripts.push(
            build
                .call(kinds::SEND_FAILURE, |c| c.peers = vec![5])
                .call(kinds::PICK, |c| c.peers = vec![5])
                .call(kinds::SEND_FAILURE, |_| {})
                .call(kinds::SEND_FAILURE, |_| {})
                .done(),
        );
    }
    let marks = State {
        progress_mark: true,
        ..syncing(CASES, 0)
    };
    scripts.push(
        Build::put("progress mark", marks)
            .call(kinds::PROGRESS, |_| {})
            .call(kinds::SCHEDULED_TICK, |_| {})
            .call(kinds::PROGRESS, |_| {})
            .done(),
    );
}

/// Flags of the view that disagree with the pairs: rules 4 and 5 go by the flags, all else by the pairs.
fn disagreements(scripts: &mut Vec<Script>) {
    use crate::build::place;
    let view = View {
        first: 1,
        rows: vec![
            Row::Present(vec![place(104, 1, true), place(102, 2, true)]),
            Row::Present(vec![
                place(108, 3, false),
                place(102, 3, false),
                place(102, 4, false),
            ]),
            Row::Present(vec![
                place(102, 4, false),
                place(102, 2, false),
                place(104, 3, true),
            ]),
            Row::Absent,
            Row::Present(vec![place(102, 9, false)]),
        ],
    };
    let pending = Request {
        peer: 6,
        type_id: 101,
        stamp: 0,
        checks: 0,
    };
    for kind in [
        kinds::REORG,
        kinds::PROGRESS,
        kinds::SECTION_TICK,
        kinds::RECEIVED,
        kinds::SCHEDULED_TICK,
        kinds::CHECK,
        kinds::ANNOUNCED,
    ] {
        for mode in [Mode::Syncing, Mode::Synced] {
            let state = State {
                mode,
                pending: [(id(8), pending)].into(),
                ..syncing(CASES, 0)
            };
            scripts.push(
                Build::put(
                    &format!("flags and pairs, kind {kind}, {}", mode.name()),
                    state,
                )
                .call(kind, |c| {
                    c.height = 5;
                    c.fork = 9;
                    c.peer = SYNC_PEER;
                    c.type_id = 101;
                    c.peers = vec![5];
                    c.view = view.clone();
                    c.stored = [(102, id(4)), (102, id(3)), (108, id(3))].into();
                })
                .done(),
            );
        }
    }
}

pub fn scripts() -> Vec<Script> {
    let mut scripts = Vec::new();
    announcements(&mut scripts);
    tips(&mut scripts);
    without_tip(&mut scripts);
    throttle(&mut scripts);
    failures(&mut scripts);
    disagreements(&mut scripts);
    scripts
}
