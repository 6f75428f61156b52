//! Pending and evicted around 1,024, in every step that adds.

use crate::build::{id, ids, missing, pending, syncing, Build, CASES};
use crate::Script;
use keeper_values::numbers::kinds;
use keeper_values::{Mode, Request, State};

const REQUEST: Request = Request {
    peer: 4,
    type_id: 102,
    stamp: 0,
    checks: 0,
};

fn filled(count: u16, evicted: u16, mode: Mode) -> State {
    State {
        mode,
        pending: pending(2_000, count, REQUEST),
        evicted: ids(4_000, evicted),
        ..syncing(CASES, 0)
    }
}

/// One id evicted so often: the question then answers with one pair.
fn repeated(count: u16, evicted: usize) -> State {
    State {
        evicted: vec![id(1); evicted],
        ..filled(count, 0, Mode::Syncing)
    }
}

pub fn scripts() -> Vec<Script> {
    let mut scripts = Vec::new();
    for (count, evicted) in [
        (1_022, 0),
        (1_023, 0),
        (1_024, 0),
        (500, 523),
        (0, 1_023),
        (0, 1_024),
    ] {
        for mode in [Mode::Syncing, Mode::Synced] {
            let name = |what: &str| format!("{what} at {count} + {evicted}, {}", mode.name());
            let full = || filled(count, evicted, mode);
            scripts.push(
                Build::put(&name("announced"), full())
                    .announce(6, 102, vec![id(1), id(1), id(2_000)])
                    .announce(6, 102, vec![id(2)])
                    .announce(6, 102, vec![id(2_000), id(1)])
                    .done(),
            );
            scripts.push(
                Build::put(&name("needed"), full())
                    .call(kinds::NEEDED, |c| c.ids = vec![id(1)])
                    .call(kinds::NEEDED, |c| c.ids = vec![id(2)])
                    .done(),
            );
            scripts.push(
                Build::put(&name("evicted"), full())
                    .call(kinds::EVICTED, |c| c.ids = vec![id(2_000)])
                    .call(kinds::EVICTED, |c| c.ids = vec![id(1)])
                    .call(kinds::EVICTED, |c| c.ids = vec![id(2_001), id(2_001)])
                    .check(&[4])
                    .done(),
            );
            scripts.push(
                Build::put(&name("progress"), full())
                    .call(kinds::PROGRESS, |c| {
                        c.height = 1;
                        c.peers = vec![4];
                        c.view = missing(1, 1);
                    })
                    .call(kinds::PROGRESS, |c| {
                        c.height = 2;
                        c.peers = vec![4];
                        c.view = missing(1, 2);
                    })
                    // 9 comes before 10.
                    .call(kinds::PROGRESS, |c| {
                        c.height = 3;
                        c.peers = vec![4];
                        c.view = missing(1, 2);
                    })
                    .call(kinds::REORG, |c| {
                        c.height = 2;
                        c.peers = vec![4];
                        c.view = missing(1, 2);
                    })
                    .done(),
            );
            scripts.push(
                Build::put(&name("lost peer and check"), full())
                    .at(10_000)
                    .check(&[5])
                    .call(kinds::LOST_PEER, |c| {
                        c.peer = 4;
                        c.peers = vec![5];
                    })
                    .done(),
            );
        }
    }
    // 10 goes by what is left at the end: an id that only changes its list is not refused, one more is. The longest list
    // of ids, so that the fixed list needs no other for it.
    scripts.push(
        Build::put(
            "an eviction to 1,024, one more, and a reorg",
            repeated(1, 0),
        )
        .call(kinds::EVICTED, |c| {
            c.ids = vec![id(1); 1_023];
            c.ids.push(id(2_000));
        })
        .announce(6, 102, vec![id(2)])
        .call(kinds::REORG, |c| {
            c.height = 2;
            c.peers = vec![4];
            c.view = missing(1, 2);
        })
        .done(),
    );
    // What a step takes out makes room for what it puts in.
    scripts.push(
        Build::put("a pending id and a new one into 1,023", repeated(1, 1_022))
            .announce(6, 102, vec![id(2_000), id(2)])
            .done(),
    );
    scripts.push(
        Build::put("a reorg frees two places of 1,024", repeated(2, 1_022))
            .call(kinds::REORG, |c| {
                c.height = 1;
                c.peers = vec![4];
                c.view = missing(1, 1);
            })
            .done(),
    );
    scripts.push(
        Build::put("a lost peer's ids at 1,024", repeated(2, 1_022))
            .call(kinds::LOST_PEER, |c| {
                c.peer = 4;
                c.peers = vec![5];
            })
            .done(),
    );
    scripts.push(
        Build::put(
            "an id evicted 1,000 times enters at 1,024",
            repeated(24, 1_000),
        )
        .check(&[5])
        .done(),
    );
    scripts.push(
        Build::begun("1,024 evicted by steps", CASES, 4)
            .call(kinds::EVICTED, |c| c.ids = ids(1, 1_024))
            .call(kinds::EVICTED, |c| c.ids = ids(1, 1))
            .announce(4, 101, ids(1, 1))
            .check(&[4])
            .announce(4, 101, ids(1, 1_024))
            .announce(4, 101, ids(1_025, 1))
            .done(),
    );
    scripts
}
