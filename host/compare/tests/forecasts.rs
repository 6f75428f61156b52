//! The forecast (F-3): a command area that is too short is none of its refusals, and a wrong figure is told wherever
//! steps are run: here under the oracle and on damaged calls, by the fixed list in `list.rs`.

use keeper_compare::report::Report;
use keeper_compare::{cases, hostile, keepers};
use keeper_reference::image;
use keeper_streams::build::{syncing, CASES};
use keeper_streams::{directed, hostile as hostiles};
use keeper_values::numbers::{kinds, types};
use keeper_values::{Answer, Arguments, Call, Forecast, Keeper, COMMAND_BYTES};
use keeper_variants::{Variant, FORECAST};

fn variants() -> Vec<Variant> {
    let mut variants = keeper_variants::all();
    variants.retain(|variant| variant.place == FORECAST);
    assert_eq!(variants.len(), 10);
    variants
}

/// 401 ids announced: one batch, two commands.
fn announcement() -> Arguments {
    let id = |number: u16| {
        let mut id = [0; 32];
        id[..2].copy_from_slice(&number.to_be_bytes());
        id
    };
    Call {
        kind: kinds::ANNOUNCED,
        gate: true,
        peer: 6,
        type_id: types::EXTENSION,
        ids: (1..=401).map(id).collect(),
        peers: vec![4, 6],
        ..Call::default()
    }
    .to_arguments()
}

#[test]
fn an_area_too_short_is_not_foretold() {
    let call = announcement();
    let expected = Forecast {
        number: 0,
        outcome: 0,
        pending: 401,
        evicted: 0,
        commands: 2,
        length: 2 * 17 + 401 * 32,
    };
    for keeper in keepers::all() {
        let mut state = image::write(&syncing(CASES, 0));
        assert_eq!(keeper.forecast(&state, &call), expected);
        let mut short = vec![0; COMMAND_BYTES - 1];
        let refused = keeper.step(&mut state, &mut short, &call);
        assert_eq!(refused, Answer::refused(3));
        // What would be refused for something else besides is foretold as that.
        let unknown = Arguments {
            kind: 0,
            ..call.clone()
        };
        assert_eq!(keeper.step(&mut state, &mut short, &unknown).number, 3);
        assert_eq!(keeper.forecast(&state, &unknown), Forecast::refused(5));
        assert_eq!(keeper.forecast(&state[1..], &unknown), Forecast::refused(1));
        state[0] ^= 1;
        assert_eq!(keeper.forecast(&state, &unknown), Forecast::refused(2));
    }
}

#[test]
fn a_wrong_figure_is_told_under_the_oracle() {
    if !keeper_oracle::SOURCE_FOUND {
        return;
    }
    for variant in variants() {
        let keepers: [&dyn Keeper; 1] = [&variant.keeper];
        let told = |tried: Result<(), String>| tried.is_err_and(|fault| fault.contains("forecast"));
        let directed = directed::scripts().iter().any(|script| {
            let mut report = Report::default();
            told(cases::try_script(&keepers, script, &mut report))
        });
        let random = (1..=300).any(|seed| {
            let mut report = Report::default();
            told(cases::try_random(&keepers, seed, &mut report))
        });
        // No directed stream has a clock that runs back.
        assert!(
            directed || variant.fault == "4 is not foretold",
            "{}",
            variant.fault
        );
        assert!(random, "{}", variant.fault);
    }
}

#[test]
fn a_wrong_figure_is_told_on_bad_inputs() {
    let refusals = [
        "3 is foretold, as no command area is lent",
        "with a refusal the forecast has the counts as they stay",
        "10 and 11 are not foretold",
        "4 is not foretold",
    ];
    let mut variants = variants();
    variants.retain(|variant| refusals.contains(&variant.fault));
    assert_eq!(variants.len(), refusals.len());
    for variant in variants {
        let told = hostiles::cases().iter().any(|case| {
            let image = image::write(&case.state);
            hostile::compare(&variant.keeper, &case.damaged, &image).is_err()
        });
        assert!(told, "{}", variant.fault);
    }
}
