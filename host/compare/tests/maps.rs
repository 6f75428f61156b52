//! The map of the window: every directed stream answers as it says, random ones go where they are meant to go, and a
//! keeper with a fault is found.

mod rows;

use keeper_compare::report::Report;
use keeper_compare::{hostile_maps, keepers, maps, tell};
use keeper_play::record;
use keeper_reference::{map, Reference, Rules, PLAIN};
use keeper_streams::maps::scripts;
use keeper_values::Keeper;

#[test]
fn directed_streams_answer_as_they_say() {
    let mut report = Report::default();
    for script in scripts() {
        maps::try_script(&keepers::all(), &script, &mut report).expect("as it says");
    }
    assert!(report.map_calls() > 1_000);
}

#[test]
fn random_streams_agree_with_rule_5() {
    let mut report = Report::default();
    for seed in 0..300 {
        maps::try_random(&keepers::all(), seed, &mut report).expect("no difference");
    }
    let met = |name, least| rows::met(&report, name, least);
    met("| fill |", 500);
    met("| arrived |", 1_000);
    met("| pruned |", 300);
    met("| slide |", 500);
    met("| no height can be passed |", 500);
    met("| 1 to 63 heights can be passed |", 500);
    met("| 64 to 191 heights can be passed |", 50);
    met("| all 192 heights can be passed |", 10);
}

/// Streams that find a fault in the first keeper, or in the second beside the reference.
fn found(keepers: &[&dyn Keeper]) -> usize {
    let mut report = Report::default();
    let tries = (0..40).map(|seed| maps::try_random(keepers, seed, &mut report));
    tries.filter(|tried| tried.is_err()).count()
}

#[test]
fn a_fault_is_found_by_the_account_alone() {
    // An absent header is let pass, wherever the map is read or written.
    let rules = Rules {
        cell_complete: |cell| cell.is_none() || map::cell_complete(cell),
        ..PLAIN
    };
    assert!(found(&[&Reference { rules }]) > 0);
    // The first height that stays is taken for stored.
    let rules = Rules {
        staying: |map, downloaded| {
            let mut cells = map::staying(map, downloaded);
            if let Some(Some(places)) = cells.first_mut() {
                places.fill(true);
            }
            cells
        },
        ..PLAIN
    };
    assert!(found(&[&Reference { rules }]) > 0);
}

#[test]
fn a_fault_is_found_beside_the_reference() {
    let plain = Reference::plain();
    let rules = Rules {
        set_place: |_, _, _| {},
        ..PLAIN
    };
    assert!(found(&[&plain, &Reference { rules }]) > 0);
    assert_eq!(found(&[&plain, &plain]), 0);
}

#[test]
fn a_fault_is_found_on_damaged_maps() {
    let found = |rules: Rules| {
        let mut report = Report::default();
        let keeper = Reference { rules };
        (0..40).any(|seed| hostile_maps::random(&keeper, seed, &mut report).is_err())
    };
    let faults = [
        Rules {
            map_version_fits: |_| true,
            ..PLAIN
        },
        Rules {
            marks_fit: |_, _| true,
            ..PLAIN
        },
        Rules {
            absent_above: |_| true,
            ..PLAIN
        },
        Rules {
            view_shows: |_, _, _| true,
            ..PLAIN
        },
    ];
    assert!(faults.into_iter().all(found));
    assert!(!found(PLAIN));
}

#[test]
fn directed_streams_tell_every_variant() {
    let mut variants = keeper_variants::all();
    variants.retain(|variant| variant.place == keeper_variants::MAP);
    assert!(variants.len() >= 50);
    let mut lines = Vec::new();
    for script in scripts() {
        lines.extend(record(&Reference::plain(), &script.lines()).expect("can be played"));
    }
    let untold = tell::untold(&variants, &lines);
    let faults: Vec<&str> = untold.iter().map(|variant| variant.fault).collect();
    assert!(faults.is_empty(), "{faults:?}");
}
