//! The call, its lists and its view, and what it would leave: refusals 4 to 11.

use super::Cases;
use crate::build::id;
use keeper_values::numbers::kinds;
use keeper_values::numbers::widths::{ID, PAIR, PEER, PLACE, ROW};
use keeper_values::Mode;

/// The call: 4 and 5.
pub fn calls(cases: &mut Cases) {
    for (clock, number) in [(99, 4), (100, 0), (101, 0), (u64::MAX, 0)] {
        cases.add(&format!("clock {clock}"), number, |_, damaged| {
            damaged.arguments.clock = clock;
        });
    }
    for mode in Mode::ALL {
        for kind in 0..=18 {
            let busy = mode.has_sync_peer();
            let taken = match kind {
                1 => mode == Mode::New,
                2 => mode == Mode::Seeking,
                3..=13 => busy,
                14 => mode == Mode::Synced,
                16 => busy || mode == Mode::Seeking,
                _ => false,
            };
            let name = format!("kind {kind} in {}", mode.name());
            cases.add(&name, if taken { 0 } else { 5 }, |state, damaged| {
                state.mode = mode;
                state.sync_peer = mode.has_sync_peer().then_some(4);
                damaged.arguments.kind = kind;
            });
        }
    }
    cases.add("kind 255", 5, |_, damaged| damaged.arguments.kind = 255);
    cases.add(
        "send failure after an entry that sent",
        0,
        |state, damaged| {
            state.mode = Mode::Syncing;
            state.entry_mark = true;
            damaged.arguments.kind = kinds::SEND_FAILURE;
        },
    );
    for byte in [2, 255] {
        cases.add(&format!("gate {byte}"), 5, |_, d| d.arguments.gate = byte);
        cases.add(&format!("parsed {byte}"), 5, |_, d| {
            d.arguments.parsed = byte
        });
        cases.add(&format!("has tip {byte}"), 5, |_, d| {
            d.arguments.has_tip = byte
        });
    }
    cases.add("4 before 5", 4, |_, damaged| {
        damaged.arguments.clock = 0;
        damaged.arguments.kind = 0;
    });
}

/// Lists and view: 6, 7 and 8.
pub fn lists(cases: &mut Cases) {
    for (bytes, number) in [
        (0, 0),
        (1, 6),
        (31, 6),
        (33, 6),
        (ID * 1_024, 0),
        (ID * 1_025, 6),
    ] {
        cases.add(&format!("ids of {bytes} bytes"), number, |_, d| {
            d.arguments.ids = vec![7; bytes];
        });
    }
    for (count, number) in [(0, 6), (1, 0), (2, 6)] {
        cases.add(&format!("{count} needed modifiers"), number, |_, d| {
            d.arguments.kind = kinds::NEEDED;
            d.arguments.ids = vec![7; ID * count];
        });
    }
    for (bytes, number) in [(0, 0), (31, 6), (ID * 400, 0), (ID * 401, 6)] {
        cases.add(&format!("continuation of {bytes} bytes"), number, |_, d| {
            d.arguments.continuation = vec![7; bytes];
        });
    }
    let rising = |count: u16| -> Vec<u8> {
        let pair = |number: u16| {
            let mut pair = vec![101; PAIR - 2];
            pair.extend(number.to_be_bytes());
            pair
        };
        (0..count).flat_map(pair).collect()
    };
    for (count, number) in [(0, 0), (1_024, 0), (1_025, 6)] {
        cases.add(&format!("{count} stored pairs"), number, |_, d| {
            d.arguments.stored = rising(count);
        });
    }
    cases.add("a stored pair short of a byte", 6, |_, d| {
        d.arguments.stored.pop();
    });
    cases.add("a stored pair twice", 6, |_, d| {
        let last = d.arguments.stored[2 * PAIR..].to_vec();
        d.arguments.stored.extend(last);
    });
    cases.add("stored pairs falling by type", 6, |_, d| {
        d.arguments.stored.rotate_left(PAIR);
    });
    cases.add("stored pairs falling by id", 6, |_, d| {
        d.arguments.stored[PAIR..].rotate_left(PAIR);
    });
    for (types, number) in [
        ([255, 256], 0),
        ([256, 255], 6),
        ([258, 511], 0),
        ([511, 258], 6),
        ([513, 258], 6),
        ([300, 65_535], 0),
        ([65_535, 300], 6),
    ] {
        let name = format!("stored pairs of types {types:?}");
        cases.add(&name, number, |_, d| {
            let pair = |type_id: u16| [&type_id.to_be_bytes()[..], &id(1)].concat();
            d.arguments.stored = types.map(pair).concat();
        });
    }
    for (bytes, number) in [(0, 0), (7, 7), (9, 7), (PEER * 128, 0), (PEER * 129, 7)] {
        cases.add(&format!("peers of {bytes} bytes"), number, |_, d| {
            d.arguments.peers = vec![7; bytes];
        });
    }
    cases.add("6 before 7", 6, |_, d| {
        d.arguments.continuation.pop();
        d.arguments.peers.pop();
    });
    cases.add("7 before 8", 7, |_, d| {
        d.arguments.peers.pop();
        d.arguments.view.pop();
    });
    cases.add("5 before 6", 5, |_, d| {
        d.arguments.gate = 2;
        d.arguments.ids.pop();
    });
}

/// Where the rows of the good view stand: an absent header, one place, three places.
const ABSENT: usize = 4;
const ONE: usize = ABSENT + ROW;
const THREE: usize = ONE + ROW;

pub fn views(cases: &mut Cases) {
    for (length, number) in [
        (0, 8),
        (ABSENT - 1, 8),
        (ABSENT, 0),
        (ABSENT + 1, 8),
        (ONE - 1, 8),
        (ONE, 0),
        (ONE + 1, 8),
    ] {
        cases.add(&format!("view of {length} bytes"), number, |_, d| {
            d.arguments.view.truncate(length);
        });
    }
    for (first, number) in [
        (u32::MAX, 8),
        (u32::MAX - 1, 8),
        (u32::MAX - 2, 0),
        (u32::MAX - 3, 0),
        (0, 0),
    ] {
        cases.add(&format!("three rows from {first}"), number, |_, d| {
            d.arguments.view[..4].copy_from_slice(&first.to_be_bytes());
        });
    }
    cases.add("no rows from the top", 0, |_, d| {
        d.arguments.view = vec![255; 4]
    });
    for (at, byte, number) in [
        (ABSENT, 254, 8),
        (ABSENT, 4, 8),
        (ABSENT, 0, 0),
        (ABSENT + 1, 1, 8),
        (ONE - 1, 1, 8),
        (ONE, 0, 8),
        (ONE, 255, 8),
        (ONE, 2, 0),
        (ONE, 4, 8),
        // The high byte of a type.
        (ONE + 1, 1, 0),
        (ONE + 1, 255, 0),
        (ONE + PLACE, 1, 0),
        (ONE + PLACE, 2, 8),
        (ONE + PLACE + 1, 1, 8),
        (THREE - 1, 1, 8),
        (THREE, 2, 8),
        (THREE + PLACE, 2, 8),
        (THREE + 2 * PLACE, 255, 8),
        (THREE + 3 * PLACE, 1, 0),
        (THREE + 3 * PLACE, 2, 8),
    ] {
        cases.add(&format!("view byte {at} is {byte}"), number, |_, d| {
            d.arguments.view[at] = byte;
        });
    }
}

/// 9 to 11 on small inputs; the streams show the rest.
pub fn results(cases: &mut Cases) {
    for (evicted, number) in [(1_023, 0), (1_024, 10)] {
        cases.add(
            &format!("one more than {evicted} evicted"),
            number,
            |state, d| {
                state.pending.clear();
                state.evicted = vec![id(1); evicted];
                d.arguments.kind = kinds::EVICTED;
            },
        );
    }
    for (stalled, number) in [(255, 0), (256, 11)] {
        cases.add(
            &format!("one more than {stalled} stalled"),
            number,
            |state, d| {
                state.mode = Mode::Syncing;
                state.stalled = (1_000..1_000 + stalled).collect();
                d.arguments.kind = kinds::SCHEDULED_TICK;
                d.arguments.clock = u64::MAX;
            },
        );
    }
    cases.add("stalled already", 0, |state, d| {
        state.mode = Mode::Syncing;
        state.stalled = (1..=256).collect();
        d.arguments.kind = kinds::SCHEDULED_TICK;
        d.arguments.clock = u64::MAX;
    });
    cases.add("8 before 9", 8, |_, d| {
        d.arguments.kind = kinds::RECEIVED;
        d.arguments.height = 50;
        d.arguments.view.pop();
    });
    cases.add("a height outside the view", 9, |_, d| {
        d.arguments.kind = kinds::RECEIVED;
        d.arguments.height = 50;
    });
    cases.add("9 before 10", 9, |state, d| {
        state.pending.clear();
        state.evicted = vec![id(1); 1_024];
        d.arguments.kind = kinds::PROGRESS;
        d.arguments.height = 50;
    });
}
