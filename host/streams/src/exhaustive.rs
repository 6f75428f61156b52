//! All short streams over a small alphabet: one id or two, two peers, heights 0 to 2, clocks that stand or pass a limit.

use crate::build::{id, place, Build};
use crate::Script;
use keeper_values::numbers::kinds;
use keeper_values::{Call, Row, Settings, View};

const SETTINGS: Settings = Settings {
    timeout: 2,
    max_checks: 2,
    min_sync_send_interval: 1,
    stall_timeout: 2,
};

/// A letter: a call whose clock is the time since the call before.
fn letter(kind: u8, wait: u64, fill: impl FnOnce(&mut Call)) -> Call {
    let mut call = Call {
        kind,
        clock: wait,
        gate: true,
        height: 2,
        peers: vec![4, 5],
        peer: 4,
        view: View {
            first: 1,
            rows: vec![
                Row::Present(vec![place(102, 1, false)]),
                Row::Present(vec![place(102, 2, true)]),
            ],
        },
        ..Call::default()
    };
    fill(&mut call);
    call
}

/// The alphabet after start and pick.
pub fn alphabet() -> Vec<Call> {
    let complete = |call: &mut Call| call.view.rows[0] = Row::Present(vec![place(102, 1, true)]);
    vec![
        letter(kinds::PICK, 0, |_| {}),
        letter(kinds::PICK, 1, |c| c.peers = vec![]),
        letter(kinds::NEEDED, 0, |c| {
            c.type_id = 101;
            c.ids = vec![id(1)];
        }),
        letter(kinds::REORG, 0, |_| {}),
        letter(kinds::ANNOUNCED, 0, |c| {
            c.type_id = 2;
            c.ids = vec![id(1)];
        }),
        letter(kinds::ANNOUNCED, 1, |c| {
            c.type_id = 102;
            c.peer = 5;
            c.ids = vec![id(2), id(2)];
        }),
        letter(kinds::ANNOUNCED, 0, |c| c.type_id = 101),
        letter(kinds::ANNOUNCED, 0, |c| {
            c.type_id = 101;
            c.peer = 5;
        }),
        letter(kinds::SYNC_INFO, 1, |c| {
            c.parsed = true;
            c.has_tip = true;
            c.tip = 3;
            c.continuation = vec![id(3)];
        }),
        letter(kinds::SYNC_INFO, 0, |c| {
            c.peer = 5;
            c.parsed = true;
            c.has_tip = true;
            c.tip = 4;
        }),
        letter(kinds::LOST_PEER, 0, |c| c.peers = vec![5]),
        letter(kinds::LOST_PEER, 0, |c| c.peer = 5),
        letter(kinds::RECEIVED, 0, |c| {
            complete(c);
            c.ids = vec![id(1)];
        }),
        letter(kinds::EVICTED, 0, |c| c.ids = vec![id(1), id(3)]),
        letter(kinds::PROGRESS, 1, |_| {}),
        letter(kinds::PROGRESS, 0, |c| c.gate = false),
        letter(kinds::CHECK, 2, |_| {}),
        letter(kinds::CHECK, 1, |c| c.peers = vec![]),
        letter(kinds::CHECK, 2, |c| c.gate = false),
        letter(kinds::SCHEDULED_TICK, 1, |_| {}),
        letter(kinds::SCHEDULED_TICK, 3, |c| c.peers = vec![]),
        letter(kinds::SECTION_TICK, 0, complete),
        letter(kinds::SEND_FAILURE, 0, |_| {}),
        letter(kinds::END_OF_STREAM, 0, |_| {}),
    ]
}

/// All streams of this many letters.
pub fn scripts(depth: u32) -> impl Iterator<Item = Script> {
    let letters = alphabet();
    let count = letters.len();
    (0..count.pow(depth)).map(move |index| {
        let mut build = Build::open(&format!("exhaustive {depth} {index}"), SETTINGS, 0, 0)
            .call(kinds::START, |_| {})
            .at(1)
            .call(kinds::PICK, |c| c.peers = vec![4]);
        let mut clock = 1;
        let mut rest = index;
        for _ in 0..depth {
            let call = &letters[rest % count];
            rest /= count;
            clock += call.clock;
            build = build.call(call.kind, |c| {
                *c = call.clone();
                c.clock = clock;
            });
        }
        build.done()
    })
}
