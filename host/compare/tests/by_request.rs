//! Random streams under the oracle go where the rules of document 02 have to be told: checks with retries and none, some or
//! all of the listed peers stalled (F-8), empty header lists of other peers than the sync peer (F-5), types of two bytes (F-6).

mod rows;

use keeper_compare::report::Report;
use keeper_compare::{cases, keepers};
use keeper_reference::Reference;
use keeper_streams::random::Random;
use keeper_streams::{build, directed};
use keeper_values::numbers::{kinds, types};
use keeper_values::Call;
use keeper_variants::{Variant, HEADERS, TARGETS, TYPES};

/// Of the random streams.
const SEEDS: std::ops::Range<u64> = 0..300;

#[test]
fn random_streams_go_there() {
    if !keeper_oracle::SOURCE_FOUND {
        return;
    }
    let mut report = Report::default();
    for seed in SEEDS {
        cases::try_random(&keepers::all(), seed, &mut report).expect("no difference");
    }
    let met = |name, least| rows::met(&report, name, least);
    met("| no listed peer stalled |", 100);
    met("| some of the listed peers stalled |", 40);
    met("| all listed peers stalled |", 15);
    met(
        "| all listed peers but the failed one stalled: where F-8 parts from F-2 |",
        15,
    );
    met("| a listed peer stalled, the failed one not listed |", 15);
    met("| a listed peer stalled, one listed twice |", 30);
    met(
        "| an empty header list from another peer than the sync peer (D-3) |",
        10,
    );
    met("| a type above 255, pending or in the call (D-4) |", 200);
}

fn variants_of(place: &str, count: usize) -> Vec<Variant> {
    let mut variants = keeper_variants::all();
    variants.retain(|variant| variant.place == place);
    assert_eq!(variants.len(), count, "{place}");
    variants
}

/// The oracle finds a wrong choice of a retry's target. Of an empty header list it has no say, and the judge holds a keeper to
/// the new rule.
#[test]
fn a_wrong_rule_is_told() {
    if !keeper_oracle::SOURCE_FOUND {
        return;
    }
    for (place, count) in [(TARGETS, 5), (HEADERS, 6)] {
        for variant in variants_of(place, count) {
            let differs = |seed| {
                let mut report = Report::default();
                cases::try_random(&[&variant.keeper], seed, &mut report).is_err()
            };
            assert!(SEEDS.into_iter().any(differs), "{}", variant.fault);
        }
    }
}

/// While a type of two bytes is pending the stream goes on without the Rust, and then with it again.
#[test]
fn the_rust_comes_back() {
    if !keeper_oracle::SOURCE_FOUND {
        return;
    }
    let mut script = directed::d4();
    let call = |kind, type_id| Call {
        kind,
        type_id,
        gate: true,
        ids: vec![build::id(1)],
        ..Call::default()
    };
    script.calls.extend([
        call(kinds::RECEIVED, 0),
        call(kinds::ANNOUNCED, types::BLOCK_TRANSACTIONS),
    ]);
    let mut report = Report::default();
    cases::try_script(&keepers::all(), &script, &mut report).expect("no difference");
    // Needed and received; start, pick and announced.
    rows::met(
        &report,
        "| a type above 255, pending or in the call (D-4) |",
        2,
    );
    rows::met(&report, "| Continue |", 3);
}

/// The Rust has no types of two bytes: they are told beside the reference.
#[test]
fn a_wrong_type_is_told() {
    if !keeper_oracle::SOURCE_FOUND {
        return;
    }
    let wide = |seed: &u64| Random::new(*seed).is_wide();
    let seeds: Vec<u64> = (0..4_000).filter(wide).collect();
    let reference = Reference::plain();
    for variant in variants_of(TYPES, 16) {
        let differs = |seed: &u64| {
            let mut report = Report::default();
            cases::try_random(&[&reference, &variant.keeper], *seed, &mut report).is_err()
        };
        assert!(seeds.iter().any(differs), "{}", variant.fault);
    }
}
