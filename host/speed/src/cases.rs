//! The calls that are timed.

use crate::bound::{ANNOUNCED, FEW, QUIET, REMOVED, SCANNED, WINDOW};
use crate::case::{Beside, Case, Memory, Prepared};
use crate::data::{
    call, from_distinct_peers, pending, quiet, synced, window, with_ids, CLOCK, HEIGHT, LONG_AGO,
};
use crate::ids::Ids;
use keeper_values::numbers::kinds;
use keeper_values::numbers::widths::RECORD;
use keeper_values::{Call, State, STATE_BYTES};

/// Steps that leave the tracker alone: a message of no concern.
pub fn idle() -> Vec<Case> {
    fn message(state: State) -> Prepared {
        Prepared::new(state, call(kinds::OTHER_MESSAGE))
    }
    vec![
        Case::idle("nothing pending", |_| message(quiet())),
        Case::idle("1,024 pending", |ids| {
            message(pending(&ids.draw(1_024), CLOCK))
        }),
        Case::idle("600 pending, 424 evicted", |ids| {
            let ids = ids.draw(1_024);
            message(State {
                evicted: ids[600..].to_vec(),
                ..pending(&ids[..600], CLOCK)
            })
        }),
        Case::idle("1,024 pending, 256 stalled", |ids| {
            message(State {
                stalled: (1..=256).collect(),
                ..pending(&ids.draw(1_024), CLOCK)
            })
        }),
    ]
}

/// One of each class that is known before the step is worked out, and one that is known after.
pub fn refused() -> Vec<Case> {
    fn full(ids: &mut Ids, call: Call) -> Prepared {
        Prepared::new(pending(&ids.draw(1_024), CLOCK), call)
    }
    fn message(ids: &mut Ids) -> Prepared {
        full(ids, call(kinds::OTHER_MESSAGE))
    }
    vec![
        Case {
            length: STATE_BYTES - 1,
            memory: Memory::None,
            ..Case::refused("1, area too short", 1, message)
        },
        Case::refused("2, wrong mark", 2, |ids| {
            let mut prepared = message(ids);
            prepared.image.bytes_mut()[0] = 0;
            prepared
        }),
        Case::refused("2, last id out of order", 2, |ids| {
            let mut prepared = message(ids);
            prepared.image.bytes_mut()[2_560 + RECORD * 1_023] = 0;
            prepared
        }),
        Case::refused("4, clock runs back", 4, |ids| {
            let back = Call {
                clock: CLOCK - 1,
                ..call(kinds::OTHER_MESSAGE)
            };
            full(ids, back)
        }),
        Case::refused("5, kind of another mode", 5, |ids| {
            full(ids, call(kinds::SECTION_TICK))
        }),
        Case::refused("8, last of 192 rows", 8, |ids| {
            let ids = ids.draw(1_600);
            let (sections, old) = ids.split_at(576);
            let mut prepared = Prepared::new(synced(pending(old, CLOCK)), window(sections));
            if let Some(last) = prepared.arguments.view.last_mut() {
                *last = 2;
            }
            prepared
        }),
        Case {
            beside: Beside::Tracker,
            ..Case::refused("10, 400 ids into 700", 10, |ids| {
                beside(ids, kinds::ANNOUNCED, 400, 700)
            })
        },
    ]
}

/// A call with so many ids, and as many others pending.
pub fn beside(ids: &mut Ids, kind: u8, count: usize, others: usize) -> Prepared {
    let drawn = ids.draw(count + others);
    let (some, others) = drawn.split_at(count);
    let call = with_ids(kind, ids.listed(some));
    Prepared::new(pending(others, CLOCK), call)
}

/// A call with so many of the ids that are pending.
pub fn among(ids: &mut Ids, kind: u8, count: usize, all: usize) -> Prepared {
    let drawn = ids.draw(all);
    let call = with_ids(kind, ids.listed(&drawn[..count]));
    Prepared::new(pending(&drawn, CLOCK), call)
}

/// The tracker's operations on full tables.
pub fn tracker() -> Vec<Case> {
    fn distinct(ids: &mut Ids, check: Call) -> Prepared {
        Prepared::new(from_distinct_peers(&ids.draw(1_024), LONG_AGO), check)
    }
    /// The listed peers are the last of the stalled ones to be found.
    fn among_stalled(ids: &mut Ids, stamp: u64, listed: u64, stalled: u64) -> Prepared {
        let state = State {
            stalled: (1..=stalled).rev().collect(),
            ..pending(&ids.draw(1_024), stamp)
        };
        let check = Call {
            peers: (1..=listed).collect(),
            ..call(kinds::CHECK)
        };
        Prepared::new(state, check)
    }
    vec![
        Case::tracked(
            "check of 1,024, all retried, one target",
            ANNOUNCED,
            |ids| Prepared::new(pending(&ids.draw(1_024), LONG_AGO), call(kinds::CHECK)),
        ),
        Case::tracked("the same, 1,024 targets", ANNOUNCED, |ids| {
            let nobody = Call {
                peers: Vec::new(),
                ..call(kinds::CHECK)
            };
            distinct(ids, nobody)
        }),
        Case::tracked("the same, gate shut", SCANNED, |ids| {
            let shut = Call {
                gate: false,
                ..call(kinds::CHECK)
            };
            distinct(ids, shut)
        }),
        Case::tracked("check of 1,024, nothing expired", SCANNED, |ids| {
            Prepared::new(pending(&ids.draw(1_024), CLOCK), call(kinds::CHECK))
        }),
        Case::tracked(
            "check of 1,024, all retried, 8 of 16 listed stalled",
            ANNOUNCED,
            |ids| among_stalled(ids, LONG_AGO, 16, 8),
        ),
        Case::tracked(
            "the same, all of 128 listed and 256 stalled",
            ANNOUNCED,
            |ids| among_stalled(ids, LONG_AGO, 128, 256),
        ),
        // The tracker has no stalled set, which every image is tested for.
        Case::tracked("the same, nothing expired", QUIET, |ids| {
            among_stalled(ids, CLOCK, 128, 256)
        }),
        received_400(),
        Case::tracked("evicted 400 of 1,024", REMOVED, |ids| {
            among(ids, kinds::EVICTED, 400, 1_024)
        }),
        announced_400(),
    ]
}

pub fn received_400() -> Case {
    Case::tracked("received 400 of 1,024", REMOVED, |ids| {
        among(ids, kinds::RECEIVED, 400, 1_024)
    })
}

pub fn announced_400() -> Case {
    Case::tracked("announced 400 into 600", ANNOUNCED, |ids| {
        beside(ids, kinds::ANNOUNCED, 400, 600)
    })
}

pub fn window_new() -> Case {
    Case::tracked("window of 192, 576 new", WINDOW, |ids| {
        let sections = ids.draw(576);
        Prepared::new(synced(quiet()), window(&ids.listed(&sections)))
    })
}

pub fn window_pending() -> Case {
    Case::tracked("window of 192, all pending", WINDOW, |ids| {
        let sections = ids.draw(576);
        let state = synced(pending(&sections, CLOCK));
        Prepared::new(state, window(&ids.listed(&sections)))
    })
}

/// Other steps.
pub fn others() -> Vec<Case> {
    vec![
        Case::tracked("announced 1 into 1,000", FEW, |ids| {
            beside(ids, kinds::ANNOUNCED, 1, 1_000)
        }),
        Case::tracked("announced 2 into 1,000", FEW, |ids| {
            beside(ids, kinds::ANNOUNCED, 2, 1_000)
        }),
        Case::tracked("announced 400, all pending in 1,000", ANNOUNCED, |ids| {
            among(ids, kinds::ANNOUNCED, 400, 1_000)
        }),
        Case::tracked("received 1 of 1,024", FEW, |ids| {
            among(ids, kinds::RECEIVED, 1, 1_024)
        }),
        Case::tracked("evicted 400, none of 600", REMOVED, |ids| {
            beside(ids, kinds::EVICTED, 400, 600)
        }),
        window_new(),
        Case::tracked("window of 192, 576 new into 448", WINDOW, |ids| {
            let drawn = ids.draw(1_024);
            let (sections, old) = drawn.split_at(576);
            let state = synced(pending(old, CLOCK));
            Prepared::new(state, window(&ids.listed(sections)))
        }),
        window_pending(),
        Case {
            bounds: FEW,
            ..Case::idle("sync info, 400 continuation ids", |ids| {
                let drawn = ids.draw(1_424);
                let (continuation, old) = drawn.split_at(400);
                let behind = Call {
                    parsed: true,
                    has_tip: true,
                    tip: HEIGHT - 1_000,
                    peer: 99,
                    continuation: ids.listed(continuation),
                    clock: CLOCK + 1_000,
                    ..call(kinds::SYNC_INFO)
                };
                Prepared::new(pending(old, LONG_AGO), behind)
            })
        },
    ]
}

pub fn question_for_a_check() -> Case {
    Case::question("for a check, 1,024 evicted", 0, |ids| {
        let evicted = ids.draw(1_024);
        State {
            evicted: ids.listed(&evicted),
            ..quiet()
        }
    })
}

pub fn questions() -> Vec<Case> {
    vec![
        question_for_a_check(),
        Case::question("for a lost peer, 1,024 pending", 1, |ids| {
            pending(&ids.draw(1_024), LONG_AGO)
        }),
    ]
}

pub fn all() -> Vec<Case> {
    [idle(), refused(), tracker(), others(), questions()]
        .into_iter()
        .flatten()
        .collect()
}
