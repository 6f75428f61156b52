//! A call stays within 360 KiB of stack, a forecast as well as the step that it foretells: on a thread that has no more, full
//! windows and the directed streams are played.

use keeper_core::Core;
use keeper_reference::image;
use keeper_streams::build::{pending, place, syncing, CASES};
use keeper_streams::{directed, Opening};
use keeper_values::numbers::kinds;
use keeper_values::{Call, Keeper, Mode, Request, Row, State, View, COMMAND_BYTES, STATE_BYTES};
use std::thread::Builder;

/// What a call may take.
const CALL: usize = 360 << 10;

/// What the thread and the frames above a call take.
const BESIDE: usize = 8 << 10;

fn run(state: &mut [u8], call: &Call) {
    let mut commands = vec![0; COMMAND_BYTES];
    let arguments = call.to_arguments();
    Core.forecast(state, &arguments);
    Core.mean_age(state, u64::MAX);
    Core.step(state, &mut commands, &arguments);
    for flag in [0, 1] {
        Core.question(state, &mut commands, flag);
    }
}

/// The directed streams; answers how many steps they have.
fn directed_streams() -> usize {
    let mut steps = 0;
    for script in directed::scripts() {
        let mut state = vec![0; STATE_BYTES];
        match script.opening {
            Opening::Put(put) => state = image::write(&put),
            Opening::Open {
                settings,
                clock,
                height,
            } => {
                Core.open(&mut state, settings, clock, height);
            }
        }
        for call in &script.calls {
            run(&mut state, call);
        }
        steps += script.calls.len();
    }
    steps
}

/// A window of 192 heights with three new sections each, in both modes, into a table that has room for them all or not.
fn windows() {
    let row = |height: u16| {
        let places = [102, 104, 108].into_iter().zip(3 * height..);
        Row::Present(
            places
                .map(|(type_id, id)| place(type_id, id, false))
                .collect(),
        )
    };
    let request = Request {
        peer: 4,
        type_id: 101,
        stamp: 0,
        checks: 0,
    };
    for (mode, kind) in [
        (Mode::Syncing, kinds::PROGRESS),
        (Mode::Synced, kinds::SECTION_TICK),
        (Mode::Synced, kinds::PROGRESS),
    ] {
        for held in [0, 448, 449, 1_024] {
            let state = State {
                mode,
                pending: pending(2_000, held, request),
                ..syncing(CASES, 0)
            };
            let call = Call {
                kind,
                gate: true,
                height: 192,
                peers: vec![4],
                view: View {
                    first: 1,
                    rows: (0..192).map(row).collect(),
                },
                ..Call::default()
            };
            run(&mut image::write(&state), &call);
        }
    }
}

#[test]
fn a_call_stays_within_its_stack() {
    let thread = Builder::new().stack_size(CALL + BESIDE).spawn(|| {
        windows();
        directed_streams()
    });
    let steps = thread.expect("a thread can be started").join();
    assert!(steps.expect("no call fails") > 1_000);
}
