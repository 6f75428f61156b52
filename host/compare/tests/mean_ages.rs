//! The mean age (F-7): sums beyond 64 bits, any number of requests, its refusals in their order. Wherever steps are run the
//! player asks for it too; images of version 1 are in `version_1.rs`.

use keeper_compare::keepers;
use keeper_play::aged;
use keeper_reference::image;
use keeper_streams::build::{pending, syncing, CASES};
use keeper_values::{MeanAge, Mode, Request, State};

const REQUEST: Request = Request {
    peer: 4,
    type_id: 300,
    stamp: 0,
    checks: 0,
};

/// So many pending, with these stamps in turn.
fn stamped(count: u16, last_clock: u64, stamps: &[u64]) -> State {
    let mut state = State {
        last_clock,
        pending: pending(1, count, REQUEST),
        ..syncing(CASES, 0)
    };
    let turns = stamps.iter().cycle();
    for (request, stamp) in state.pending.values_mut().zip(turns) {
        request.stamp = *stamp;
    }
    state
}

fn mean(count: u32, quotient: u64, remainder: u64) -> MeanAge {
    MeanAge {
        number: 0,
        count,
        quotient,
        remainder,
    }
}

#[test]
fn the_largest_sum_is_exact() {
    let all = image::write(&stamped(1_024, 0, &[0]));
    let mut younger = stamped(1_024, 1, &[0]);
    younger
        .pending
        .values_mut()
        .next()
        .expect("a request")
        .stamp = 1;
    let younger = image::write(&younger);
    for keeper in keepers::all() {
        assert_eq!(keeper.mean_age(&all, u64::MAX), mean(1_024, u64::MAX, 0));
        let below = mean(1_024, u64::MAX - 1, 1_023);
        assert_eq!(keeper.mean_age(&younger, u64::MAX), below);
    }
}

/// None, one, and every other number of them, where the sum has 64 bits, one more, and ten more.
#[test]
fn any_number_of_requests() {
    for count in 0..=1_024 {
        let stamps = [0, 1, 999, 3_000, 12_345_678_901_234_567];
        let area = image::write(&stamped(count, 12_345_678_901_234_567, &stamps));
        let clocks = [
            12_345_678_901_234_567,
            1 << 62,
            (1 << 63) + 7,
            u64::MAX - 1,
            u64::MAX,
        ];
        for keeper in keepers::all() {
            assert_eq!(aged(keeper, &area, &clocks), Ok(()), "{count}");
        }
    }
}

#[test]
fn in_any_mode() {
    for mode in Mode::ALL {
        let mut state = stamped(3, 1_000, &[1_000, 997, 0]);
        state.mode = mode;
        if !mode.has_sync_peer() {
            state.sync_peer = None;
        }
        let area = image::write(&state);
        for keeper in keepers::all() {
            assert_eq!(keeper.mean_age(&area, 1_000), mean(3, 334, 1), "{mode:?}");
            assert_eq!(keeper.mean_age(&area, 1_001), mean(3, 335, 1), "{mode:?}");
        }
    }
}

/// "1, 2 and 4 apply, in this order", with all else 0.
#[test]
fn refusals_in_their_order() {
    let sound = image::write(&stamped(3, 1_000, &[0]));
    let mut malformed = sound.clone();
    malformed[0] ^= 1;
    let short = &malformed[1..];
    let long = [&malformed[..], &[0]].concat();
    for keeper in keepers::all() {
        for clock in [0, 999, 1_000, u64::MAX] {
            assert_eq!(keeper.mean_age(short, clock), MeanAge::refused(1));
            assert_eq!(keeper.mean_age(&long, clock), MeanAge::refused(1));
            assert_eq!(keeper.mean_age(&[], clock), MeanAge::refused(1));
            assert_eq!(keeper.mean_age(&malformed, clock), MeanAge::refused(2));
        }
        assert_eq!(keeper.mean_age(&sound, 0), MeanAge::refused(4));
        assert_eq!(keeper.mean_age(&sound, 999), MeanAge::refused(4));
        assert_eq!(keeper.mean_age(&sound, 1_000), mean(3, 1_000, 0));
    }
}
