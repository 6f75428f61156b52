//! Areas and images: refusals 1 to 3.

use super::Cases;
use crate::build::id;
use keeper_values::numbers::kinds;
use keeper_values::numbers::widths::RECORD;
use keeper_values::{Mode, State};

/// Areas: 1, 2 and 3.
pub fn areas(cases: &mut Cases) {
    for (state, number) in [(0, 1), (65_535, 1), (65_536, 0), (65_537, 1)] {
        cases.lengths(state, 65_536, number);
        cases.lengths(state, 65_535, number.max(u32::from(number == 0) * 3));
    }
    cases.lengths(65_536, 0, 3);
    cases.lengths(65_536, 65_537, 0);
    cases.add("2 before 3", 2, |_, damaged| {
        damaged.poke = Some((0, vec![0]));
        damaged.commands_length = 65_535;
    });
    for (offset, byte) in [(0, 0x65), (1, 0x45), (2, 0)] {
        cases.poke(&format!("mark at {offset}"), 2, offset, &[byte]);
    }
    cases.poke("mode 5", 2, 5, &[5]);
    cases.poke("mode 255", 2, 5, &[255]);
    for (offset, byte, mode, number) in [
        (6, 1, Mode::Synced, 2),
        (7, 1, Mode::Synced, 2),
        (6, 1, Mode::Syncing, 0),
        (7, 1, Mode::Syncing, 0),
        (6, 2, Mode::Syncing, 2),
        (7, 255, Mode::Syncing, 2),
    ] {
        let name = format!("mark at {offset} is {byte} in {}", mode.name());
        cases.add(&name, number, |state, damaged| {
            state.mode = mode;
            damaged.poke = Some((offset, vec![byte]));
        });
    }
    cases.state("both marks in syncing", 0, |state| {
        state.mode = Mode::Syncing;
        state.progress_mark = true;
        state.entry_mark = true;
    });
    for (name, offset) in [("last progress", 39), ("last send", 47)] {
        cases.poke(&format!("{name} at the last clock"), 0, offset, &[100]);
        cases.poke(&format!("{name} after the last clock"), 2, offset, &[101]);
    }
}

/// Versions, and what is unused in the first: the high bytes of types.
pub fn versions(cases: &mut Cases) {
    for version in [0, 1, 2, 3, 255, 256, 257, 258, 513, 65_535] {
        let number = if matches!(version, 1 | 2) { 0 } else { 2 };
        let version = u16::to_be_bytes(version);
        let name = format!("version {}", u16::from_be_bytes(version));
        cases.poke(&name, number, 3, &version);
    }
    let byte_types = u16::to_be_bytes(1);
    cases.add("version 1, and the step is refused", 5, |_, damaged| {
        damaged.arguments.kind = kinds::START;
        damaged.poke = Some((3, byte_types.to_vec()));
    });
    for number in 1..=3 {
        for type_id in [255, 256, 258, 357, 65_535] {
            let held = |state: &mut State| {
                if let Some(request) = state.pending.get_mut(&id(number)) {
                    (request.type_id, request.checks) = (type_id, 1);
                }
            };
            let name = format!("record {number} of type {type_id}");
            cases.state(&name, 0, held);
            let refused = if type_id > 255 { 2 } else { 0 };
            let name = format!("{name} in version 1");
            cases.add(&name, refused, |state, damaged| {
                held(state);
                damaged.poke = Some((3, byte_types.to_vec()));
            });
        }
    }
    cases.add(
        "version 1, a transaction with a check",
        2,
        |state, damaged| {
            if let Some(request) = state.pending.get_mut(&id(2)) {
                request.checks = 1;
            }
            damaged.poke = Some((3, byte_types.to_vec()));
        },
    );
    cases.state("258 with checks at the limit", 2, |state| {
        if let Some(request) = state.pending.get_mut(&id(2)) {
            (request.type_id, request.checks) = (258, 2);
        }
    });
}

/// What the image holds: counts, stalled peers, records, unused bytes.
pub fn image(cases: &mut Cases) {
    for mode in [Mode::New, Mode::Seeking, Mode::Ended] {
        cases.add(
            &format!("a sync peer in {}", mode.name()),
            2,
            |state, damaged| {
                state.mode = mode;
                state.sync_peer = None;
                damaged.arguments.kind = [1, 2, 0, 0, 16][usize::from(mode.number())];
                damaged.poke = Some((55, vec![4]));
            },
        );
    }
    for offset in [74, 75, 76, 299, 300, 511, 536, 2_559, 2_722, 40_000, 65_439] {
        cases.poke(&format!("unused byte {offset}"), 2, offset, &[1]);
    }
    cases.poke("a stalled peer more, which is 0 again", 2, 69, &[4]);
    cases.poke("a stalled peer less", 2, 69, &[2]);
    cases.poke("a peer stalled twice", 2, 527, &[7]);
    cases.poke("257 stalled", 2, 68, &[1, 1]);
    cases.poke("a pending record less", 2, 71, &[2]);
    cases.poke("a record of zeros after the others", 2, 71, &[4]);
    cases.poke("1,022 pending and 3 evicted", 2, 70, &[3, 254]);
    cases.poke("an evicted id less", 2, 73, &[2]);
    cases.poke("an evicted id of zeros", 0, 73, &[4]);
    cases.poke("1,022 evicted and 3 pending", 2, 72, &[3, 254]);
    cases.poke("equal ids", 2, 2_560 + RECORD + 31, &[1]);
    cases.poke("falling ids", 2, 2_560 + 31, &[9]);
    cases.poke("falling ids by the first byte", 2, 2_560, &[0x12]);
    cases.poke("a type's high byte", 0, 2_600, &[1]);
    cases.poke("a stamp after the last clock", 2, 2_560 + 49, &[101]);
    cases.poke("a stamp at the last clock", 0, 2_560 + 49, &[100]);
    cases.poke("checks at the limit", 2, 2_560 + 53, &[2]);
    cases.poke("a transaction with a check", 2, 2_560 + RECORD + 53, &[1]);
    cases.add("limit 0 and a check", 2, |state, _| {
        state.settings.max_checks = 0
    });
    cases.add("limit 0 and no check", 0, |state, _| {
        state.settings.max_checks = 0;
        state.pending.remove(&id(1));
    });
    cases.state("256 stalled in falling order", 0, |state| {
        state.stalled = (1..=256).rev().collect();
    });
    cases.state("new with pending records", 5, |state| {
        state.mode = Mode::New;
        state.sync_peer = None;
    });
    cases.add(
        "1,024 evicted and a record of zeros",
        2,
        |state, damaged| {
            state.pending.clear();
            state.evicted = vec![id(1); 1_024];
            damaged.poke = Some((70, vec![0, 1]));
        },
    );
}
