//! Forecasts: they are what the steps then show, can be expected, and are shown on demand.

use drill::play::{play, Moment, Played};
use drill::scenario::read;
use drill::sending::Sent;
use drill::shipped::SCENARIOS;
use drill::timeline::{self, OnDemand};
use request_keeper::Forecast;

fn played(text: &str) -> Played {
    play(&read(text).expect("well formed")).expect("opened")
}

/// What a step has shown of what a forecast says; a command has 17 bytes, and 32 for each id.
fn shown(moment: &Moment) -> Option<Forecast> {
    let answer = moment.result.ok()?;
    let bytes = moment.sendings.iter().map(|sending| match &sending.what {
        Sent::SyncInfo => 17,
        Sent::Request(_, ids) | Sent::Announcement(ids) => 17 + 32 * ids.len(),
    });
    Some(Forecast {
        outcome: answer.outcome,
        pending: moment.after.pending.len() as u32,
        evicted: moment.after.evicted.len() as u32,
        commands: moment.sendings.len() as u32,
        command_bytes: bytes.sum::<usize>() as u32,
    })
}

#[test]
fn each_forecast_is_what_its_step_shows() {
    let long = "ids x001..x401\nopen 0 0\npeers 4\nat 0 start\nat 1000 pick\nat 900 check\nexpect refused 4\n\
                at 1000 announced 4 header x001..x401\nexpect forecast finished pending 401 commands 2 bytes 12,866\n";
    for text in SCENARIOS.map(|(_, text)| text).into_iter().chain([long]) {
        let played = played(text);
        assert!(played.as_expected(), "{}", timeline::timeline(&played));
        for moment in played.moments() {
            match shown(moment) {
                Some(shown) => assert_eq!(moment.forecast, Ok(shown), "{}", moment.text),
                None => assert_eq!(moment.forecast.err(), moment.result.err()),
            }
        }
    }
}

/// Steps of a keeper that is syncing, the last with these expectations.
fn with(steps: &str, expectations: &[&str]) -> Played {
    let head = "open 0 0\npeers 4\nat 0 start\nat 1000 pick\n";
    let expected = expectations.iter().map(|words| format!("expect {words}\n"));
    played(&format!("{head}{steps}\n{}", expected.collect::<String>()))
}

/// The refusal that is foretold is the step's, and has to be expected of both.
#[test]
fn a_refusal_is_foretold() {
    let cases = [
        ("at 500 check", 4),
        ("at 2000 pick", 5),
        ("chain 1\nview 0\nat 2000 progress", 9),
        (
            "chain 1\nheader 1 block:a proofs:b extension:c header:d\nat 2000 progress",
            8,
        ),
    ];
    for (steps, number) in cases {
        let foretold = format!("forecast refused {number}");
        let refused = format!("refused {number}");
        assert!(with(steps, &[&foretold, &refused]).as_expected(), "{steps}");
        for wrong in [
            &[foretold.as_str()][..],
            &["forecast refused 7", &refused],
            &["forecast finished", &refused],
            &["forecast finished commands 0 bytes 0", &refused],
        ] {
            assert!(!with(steps, wrong).as_expected(), "{steps}: {wrong:?}");
        }
    }
}

/// What was expected and what was found stand side by side.
#[test]
fn a_wrong_figure_is_told() {
    let cases = [
        (
            "at 2000 scheduled-tick",
            "forecast finished commands 2",
            "finished, outcome Continue, pending 0, evicted 0, commands 1, bytes 17",
        ),
        (
            "at 2000 scheduled-tick",
            "forecast refused 9",
            "finished, outcome Continue, pending 0, evicted 0, commands 1, bytes 17",
        ),
        (
            "at 500 check",
            "forecast finished",
            "refused as 4: clock before the last finished step's or the opening's",
        ),
    ];
    for (steps, expected, found) in cases {
        let told = timeline::unmet(&with(steps, &[expected]));
        let told = told.split_whitespace().collect::<Vec<_>>().join(" ");
        let sentence = format!("NOT MET line 6: expect {expected}; found: {found}");
        assert!(told.contains(&sentence), "{sentence} is not in\n{told}");
    }
}

/// One line more a step, and nothing else.
#[test]
fn forecasts_are_shown_on_demand() {
    for (name, text) in SCENARIOS {
        let played = played(text);
        let on_demand = OnDemand {
            forecast: true,
            ..OnDemand::default()
        };
        let told = timeline::timeline_with(&played, on_demand);
        let (forecasts, others): (Vec<&str>, Vec<&str>) = told
            .split_inclusive('\n')
            .partition(|line| line.trim_start().starts_with("forecast   "));
        assert_eq!(forecasts.len(), played.moments().count(), "{name}");
        assert_eq!(others.concat(), timeline::timeline(&played), "{name}");
    }
}
