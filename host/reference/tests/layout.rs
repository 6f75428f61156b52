//! The worked examples of docs/LAYOUT.md.

use keeper_reference::{image, Reference, PLAIN};
use keeper_values::numbers::kinds;
use keeper_values::{Arguments, Call, Keeper, Mode, Place, Request, Row, Settings, State, View};
use keeper_values::{MapCall, MAP_BYTES};

const SETTINGS: Settings = Settings {
    timeout: 10_000,
    max_checks: 100,
    min_sync_send_interval: 200,
    stall_timeout: 60_000,
};

fn bytes(text: &str) -> Vec<u8> {
    let digits: Vec<u32> = text.chars().filter_map(|c| c.to_digit(16)).collect();
    let byte = |pair: &[u32]| (pair[0] * 16 + pair[1]) as u8;
    digits.chunks(2).map(byte).collect()
}

fn opened() -> Vec<u8> {
    let mut state = vec![0xff; 65_536];
    assert_eq!(Reference::plain().open(&mut state, SETTINGS, 1_000, 5), 0);
    state
}

fn holding(mode: Mode) -> State {
    State {
        mode,
        sync_peer: mode.has_sync_peer().then_some(9),
        ..image::read(&PLAIN, &opened()).expect("well formed")
    }
}

#[test]
fn opened_core() {
    let header = bytes(
        "45 44 54 00 02 00 00 00  00 00 00 00 00 00 03 e8
         00 00 27 10 00 00 00 64  00 00 00 c8 00 00 ea 60
         00 00 00 00 00 00 03 e8  00 00 00 00 00 00 03 e8
         00 00 00 00 00 00 00 00  00 00 00 00 00 00 00 05",
    );
    let state = opened();
    assert_eq!(state[..64], header);
    assert!(state[64..].iter().all(|byte| *byte == 0));
}

#[test]
fn opening_of_another_length() {
    for length in [0, 65_535, 65_537] {
        let mut state = vec![7; length];
        assert_eq!(Reference::plain().open(&mut state, SETTINGS, 1_000, 5), 1);
        assert_eq!(state, vec![7; length]);
    }
}

#[test]
fn pending_record() {
    let mut state = holding(Mode::Synced);
    state.last_clock = 10_000;
    let request = Request {
        peer: 7,
        type_id: 102,
        stamp: 10_000,
        checks: 1,
    };
    state.pending.insert([0xaa; 32], request);
    state.evicted = vec![[1; 32], [2; 32]];
    let area = image::write(&state);
    let mut record = vec![0xaa; 32];
    record.extend(bytes(
        "00 00 00 00 00 00 00 07  00 66  00 00 00 00 00 00 27 10  00 00 00 01",
    ));
    assert_eq!(area[2_560..2_614], record);
    assert_eq!(area[65_536 - 64..], [[1; 32], [2; 32]].concat());
    assert_eq!(image::read(&PLAIN, &area), Some(state));
}

#[test]
fn lists_and_view() {
    let call = Call {
        stored: [(102, [0xbb; 32])].into(),
        peers: vec![4, 5],
        view: View {
            first: 401,
            rows: vec![Row::Present(vec![Place {
                type_id: 102,
                id: [0xcc; 32],
                stored: false,
            }])],
        },
        ..Call::default()
    };
    let arguments = call.to_arguments();
    assert_eq!(arguments.stored, [vec![0, 0x66], vec![0xbb; 32]].concat());
    assert_eq!(
        arguments.peers,
        bytes("00 00 00 00 00 00 00 04  00 00 00 00 00 00 00 05")
    );
    let mut view = bytes("00 00 01 91  01 00 66");
    view.extend([0xcc; 32]);
    view.extend([0; 71]);
    assert_eq!(arguments.view, view);
}

#[test]
fn commands() {
    // Progress in syncing asks peer 7 for a header and then sends to the sync peer.
    let mut state = image::write(&holding(Mode::Syncing));
    let mut commands = vec![0x5a; 65_600];
    let place = Place {
        type_id: 101,
        id: [0xdd; 32],
        stored: false,
    };
    let call = Call {
        kind: kinds::PROGRESS,
        clock: 2_000,
        gate: true,
        height: 6,
        peers: vec![7],
        view: View {
            first: 6,
            rows: vec![Row::Present(vec![place])],
        },
        ..Call::default()
    };
    let answer = Reference::plain().step(&mut state, &mut commands, &call.to_arguments());
    assert_eq!(answer.numbers(), [0, 0, 0, 0, 0, 0, 1, 0, 66]);
    let mut written = bytes("01 00 65 00 00  00 00 00 00 00 00 00 07  00 00 00 01");
    written.extend([0xdd; 32]);
    written.extend(bytes(
        "03 00 00 00 01  00 00 00 00 00 00 00 09  00 00 00 00",
    ));
    assert_eq!(commands[..66], written);
    assert!(commands[66..].iter().all(|byte| *byte == 0x5a));
}

#[test]
fn question() {
    let mut state = holding(Mode::Synced);
    state.evicted = vec![[0xee; 32], [0x11; 32], [0xee; 32]];
    let mut commands = vec![0x5a; 65_536];
    let area = image::write(&state);
    let answer = Reference::plain().question(&area, &mut commands, 0);
    assert_eq!(answer, (0, 68));
    let pair = |byte| [vec![0, 0x65], vec![byte; 32]].concat();
    assert_eq!(commands[..68], [pair(0x11), pair(0xee)].concat());
    assert!(commands[68..].iter().all(|byte| *byte == 0x5a));
    assert_eq!(Reference::plain().question(&area, &mut commands, 2), (5, 0));
}

#[test]
fn refusal_leaves_all() {
    let mut state = opened();
    let mut commands = vec![0x5a; 65_536];
    let call = Arguments {
        kind: kinds::PICK,
        clock: 1_000,
        ..Arguments::default()
    };
    let answer = Reference::plain().step(&mut state, &mut commands, &call);
    assert_eq!(answer.numbers(), [5, 0, 0, 0, 0, 0, 0, 0, 0]);
    assert_eq!(state, opened());
    assert_eq!(commands, vec![0x5a; 65_536]);
}

#[test]
fn map_of_the_window() {
    let place = |id: u8, stored| Place {
        type_id: 102,
        id: [id; 32],
        stored,
    };
    let view = View {
        first: 401,
        rows: vec![
            Row::Present(vec![place(1, true), place(2, true)]),
            Row::Present(vec![place(3, false)]),
        ],
    };
    // A whole fill takes any 512 bytes.
    let mut map = vec![0x5a; MAP_BYTES];
    let fill = MapCall::Fill {
        downloaded: 400,
        chain: 402,
        view: view.to_bytes(),
    };
    assert_eq!(Reference::plain().map_call(&mut map, &fill), 0);
    let mut expected = bytes(
        "45 44 4d 01 00 00 01 90  00 00 01 92 00 00 00 00
         00 00 00 00 00 00 00 01  00 00 00 00 00 00 00 00
         00 00 00 00 00 00 00 00  00 00 00 00 00 00 00 00",
    );
    expected.resize(0x40, 0);
    expected.extend([0x23, 0x10]);
    expected.resize(0x100, 0x80);
    expected.resize(MAP_BYTES, 0);
    assert_eq!(map, expected);
    assert_eq!(Reference::plain().map_passable(&map), (0, 1));
}
