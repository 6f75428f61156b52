//! Images that the core of version 0.6.0 wrote, the last to write version 1: reference and core read them as the state that the
//! same calls lead to today, leave them alone where nothing is written, and write version 2 with a finished step.

use keeper_compare::keepers;
use keeper_play::FILL;
use keeper_reference::{image, PLAIN};
use keeper_streams::random::Random;
use keeper_streams::version_1::scripts;
use keeper_streams::{Opening, Script};
use keeper_values::numbers::{kinds, widths};
use keeper_values::{Answer, Arguments, Call, Keeper, Mode, State, View};
use keeper_values::{COMMAND_BYTES, STATE_BYTES};
use std::collections::BTreeSet;
use std::fs;
use std::path::Path;

const VERSION: std::ops::Range<usize> = 3..5;

fn folder() -> std::path::PathBuf {
    Path::new(env!("CARGO_MANIFEST_DIR")).join("../fixed/version-1")
}

/// An image as it was written, and the calls that led to it.
struct Kept {
    name: String,
    image: Vec<u8>,
    script: Script,
    state: State,
}

fn kept() -> Vec<Kept> {
    let read = |script: Script| {
        let file = folder().join(format!("{}.bin", script.name));
        let image = fs::read(file).expect("an image for each stream");
        Kept {
            name: script.name.clone(),
            state: image::read(&PLAIN, &image).expect("well formed"),
            image,
            script,
        }
    };
    scripts().into_iter().map(read).collect()
}

/// The area that the same calls lead to today.
fn today(keeper: &dyn Keeper, script: &Script) -> Vec<u8> {
    let Opening::Open {
        settings,
        clock,
        height,
    } = script.opening
    else {
        panic!("{} does not begin with an opening", script.name);
    };
    let mut area = vec![FILL; STATE_BYTES];
    let mut commands = vec![FILL; COMMAND_BYTES];
    assert_eq!(keeper.open(&mut area, settings, clock, height), 0);
    for call in &script.calls {
        let answer = keeper.step(&mut area, &mut commands, &call.to_arguments());
        assert_eq!(answer.number, 0, "{}", script.name);
    }
    area
}

/// What a step leaves: the answer and both areas.
fn stepped(keeper: &dyn Keeper, area: &[u8], call: &Arguments) -> (Answer, Vec<u8>, Vec<u8>) {
    let mut area = area.to_vec();
    let mut commands = vec![FILL; COMMAND_BYTES];
    let answer = keeper.step(&mut area, &mut commands, call);
    (answer, area, commands)
}

/// A question and what it writes.
fn asked(keeper: &dyn Keeper, area: &[u8], flag: u8) -> ((u32, u32), Vec<u8>) {
    let mut commands = vec![FILL; COMMAND_BYTES];
    (keeper.question(area, &mut commands, flag), commands)
}

/// One call on an image of version 1 and on the same of version 2. The area of version 2 afterwards, and the number.
fn same(keeper: &dyn Keeper, old: &[u8], new: &[u8], call: &Arguments) -> (Vec<u8>, u32) {
    let what = || format!("{call:?}");
    assert!(keeper.forecast(old, call) == keeper.forecast(new, call));
    let ages = [old, new].map(|area| keeper.mean_age(area, call.clock));
    assert_eq!(ages[0], ages[1], "{}", what());
    let (answer, left, commands) = stepped(keeper, old, call);
    let (expected, after, written) = stepped(keeper, new, call);
    assert_eq!(answer, expected, "{}", what());
    assert!(commands == written, "{}", what());
    if answer.number == 0 {
        assert!(left == after, "{}", what());
        assert_eq!(after[VERSION], [0, 2]);
    } else {
        assert!(left == old && after == new, "{}", what());
    }
    (after, answer.number)
}

/// Every kind of step, at clocks around the last one, with types of one byte and of two, in room or in none.
fn calls(state: &State) -> Vec<Call> {
    let mut calls = Vec::new();
    let last = state.last_clock;
    let entry = *state.pending.keys().next().unwrap_or(&[9; widths::ID]);
    for kind in 0..=kinds::LAST + 1 {
        for clock in [last - 1, last, last + 10_000, last + 60_001] {
            for type_id in [2, 101, 102, 300, 358] {
                let call = Call {
                    kind,
                    clock,
                    type_id,
                    gate: true,
                    height: state.downloaded,
                    peer: state.sync_peer.unwrap_or(1),
                    peers: vec![7, 9],
                    ids: vec![entry],
                    view: View::default(),
                    ..Call::default()
                };
                let mut fresh = call.clone();
                fresh.ids = vec![[0x77; widths::ID]];
                calls.extend([call, fresh]);
            }
        }
    }
    calls
}

#[test]
fn the_folder_has_an_image_for_each_stream() {
    let files = fs::read_dir(folder()).expect("the folder");
    let names = files.map(|file| file.expect("a file").file_name().into_string());
    let names: BTreeSet<String> = names.map(|name| name.expect("a name")).collect();
    let expected = kept().into_iter().map(|kept| format!("{}.bin", kept.name));
    let readme = ["README.md".to_string()];
    assert_eq!(names, expected.chain(readme).collect());
}

#[test]
fn every_mode_and_full_and_empty_tables() {
    let mut met = BTreeSet::new();
    for Kept { state, image, .. } in kept() {
        assert_eq!(image.len(), STATE_BYTES);
        assert_eq!(image[VERSION], [0, 1]);
        let tracked = state.pending.len() + state.evicted.len();
        met.insert((state.mode.number(), tracked));
        if tracked > 0 {
            let types: BTreeSet<u16> = state.pending.values().map(|r| r.type_id).collect();
            assert_eq!(
                Vec::from_iter(types),
                [0, 2, 3, 101, 102, 103, 104, 108, 255]
            );
        }
    }
    let modes = Mode::ALL.into_iter().flat_map(|mode| {
        let full = (mode.number(), 1_024);
        [
            Some((mode.number(), 0)),
            (mode != Mode::New).then_some(full),
        ]
    });
    assert_eq!(met, modes.flatten().collect());
}

#[test]
fn they_mean_the_state_that_the_calls_lead_to() {
    for kept in kept() {
        for keeper in keepers::all() {
            let area = today(keeper, &kept.script);
            assert_eq!(image::read(&PLAIN, &area).as_ref(), Some(&kept.state));
            let mut newer = kept.image.clone();
            newer[VERSION].copy_from_slice(&[0, 2]);
            assert!(area == newer, "{}: only the version differs", kept.name);
        }
    }
}

#[test]
fn questions_answer_as_on_version_2_and_write_no_state() {
    for kept in kept() {
        for keeper in keepers::all() {
            let new = today(keeper, &kept.script);
            for flag in [0, 1, 2] {
                let old = asked(keeper, &kept.image, flag);
                assert!(old == asked(keeper, &new, flag), "{} {flag}", kept.name);
            }
        }
    }
}

/// Steps and forecasts, finished and refused.
#[test]
fn steps_are_those_of_version_2() {
    let mut numbers = BTreeSet::new();
    for kept in kept() {
        for keeper in keepers::all() {
            let new = today(keeper, &kept.script);
            for call in calls(&kept.state) {
                let (_, number) = same(keeper, &kept.image, &new, &call.to_arguments());
                numbers.insert(number);
            }
        }
    }
    assert_eq!(Vec::from_iter(numbers), [0, 4, 5, 9, 10, 11]);
}

/// A number, and what it is given for.
type Bad = (u32, fn(&mut Arguments));

#[test]
fn malformed_calls_leave_them() {
    let bad: [Bad; 6] = [
        (5, |call| call.gate = 2),
        (6, |call| call.ids.push(0)),
        (6, |call| call.stored = vec![0; widths::PAIR + 1]),
        (7, |call| call.peers.push(0)),
        (8, |call| call.view.clear()),
        (9, |call| {
            (call.kind, call.height) = (kinds::RECEIVED, u32::MAX)
        }),
    ];
    let busy = |kept: &Kept| kept.state.mode.has_sync_peer();
    for kept in kept().into_iter().filter(busy) {
        for keeper in keepers::all() {
            let new = today(keeper, &kept.script);
            for (number, damage) in bad {
                let call = Call {
                    kind: kinds::OTHER_MESSAGE,
                    clock: kept.state.last_clock,
                    ..Call::default()
                };
                let mut call = call.to_arguments();
                damage(&mut call);
                assert_eq!(same(keeper, &kept.image, &new, &call).1, number);
            }
        }
    }
}

/// A stream goes on from each: the first finished step brings it to version 2, and all that follow are the same.
#[test]
fn streams_go_on_from_them() {
    for kept in kept() {
        for keeper in keepers::all() {
            for seed in 0..30 {
                let mut random = Random::new(seed);
                let mut old = kept.image.clone();
                let mut new = today(keeper, &kept.script);
                for _ in 0..25 {
                    let state = image::read(&PLAIN, &old).expect("well formed");
                    let call = random.next(&state).to_arguments();
                    let (after, number) = same(keeper, &old, &new, &call);
                    if number == 0 {
                        old.clone_from(&after);
                    }
                    new = after;
                }
            }
        }
    }
}

/// "with the high byte of each type unused (not zero: 2)"
#[test]
fn a_high_byte_is_malformed_in_version_1_only() {
    for kept in kept() {
        let count = kept.state.pending.len();
        for keeper in keepers::all() {
            for record in [0, count / 2, count.saturating_sub(1)] {
                let at = 2_560 + widths::RECORD * record + 40;
                for byte in [1, 2, 128, 255] {
                    let mut area = kept.image.clone();
                    area[at] = byte;
                    assert_eq!(asked(keeper, &area, 0).0, (2, 0), "{} {at}", kept.name);
                    if count > 0 {
                        area[VERSION].copy_from_slice(&[0, 2]);
                        assert_eq!(asked(keeper, &area, 0).0 .0, 0, "{} {at}", kept.name);
                    }
                }
            }
        }
    }
}

#[test]
fn no_other_version_is_read() {
    for kept in kept() {
        for keeper in keepers::all() {
            for version in [0_u16, 3, 255, 256, 257, 258, 512, 65_535] {
                let mut area = kept.image.clone();
                area[VERSION].copy_from_slice(&version.to_be_bytes());
                assert_eq!(asked(keeper, &area, 0).0, (2, 0), "{} {version}", kept.name);
            }
        }
    }
}
