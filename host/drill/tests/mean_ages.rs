//! Mean ages: those of what is pending after a step, can be expected, and are shown on demand.

use drill::play::{play, Played};
use drill::scenario::read;
use drill::shipped::SCENARIOS;
use drill::timeline::{self, OnDemand};

const MEAN_AGES: OnDemand = OnDemand {
    forecast: false,
    mean_age: true,
};

fn played(text: &str) -> Played {
    play(&read(text).expect("well formed")).expect("opened")
}

/// Headers asked for at 2,000 and 2,400, and a step at 2,500: ages of 500, 100 and 100.
fn with(expectation: &str) -> Played {
    played(&format!(
        "ids a b c\nopen 0 0\npeers 4\nat 0 start\nat 1000 pick\nat 2000 announced 4 header a\n\
         at 2400 announced 4 header b c\nat 2500 message\nexpect {expectation}\n"
    ))
}

#[test]
fn a_mean_age_is_expected() {
    assert!(with("mean-age 3 233 1").as_expected());
    for wrong in ["3 233 0", "3 234 1", "2 233 1", "0 0 0", "3 233 2"] {
        let told = timeline::unmet(&with(&format!("mean-age {wrong}")));
        let found = format!("expect mean-age {wrong}; found: 233 1/3 ms, 3 pending");
        assert!(told.contains(&found), "{told}");
    }
}

/// After a refused step there is one too, unless its clock ran back.
#[test]
fn of_a_refused_step() {
    let head = "ids a\nopen 0 0\npeers 4\nat 0 start\nat 1000 pick\nat 2000 announced 4 header a\n";
    let refused = |step: &str, expectation: &str| {
        let text = format!("{head}{step}\nexpect refused 5\nexpect {expectation}\n");
        played(&text)
    };
    assert!(refused("at 2500 start", "mean-age 1 500 0").as_expected());
    let early = played(&format!("{head}at 1999 check\nexpect refused 4\n"));
    let told = timeline::timeline_with(&early, MEAN_AGES);
    assert!(told.contains("mean age   refused as 4: "), "{told}");
}

/// With what is pending in the timeline of each shipped scenario; one line more a step, and nothing else.
#[test]
fn they_are_those_of_what_is_pending() {
    for (name, text) in SCENARIOS {
        let played = played(text);
        for moment in played.moments() {
            let Ok(mean) = moment.mean_age else {
                assert_eq!(moment.result.err().map(|refusal| refusal.number()), Some(4));
                continue;
            };
            let requests = moment.after.pending.values();
            let ages = requests.map(|request| u128::from(moment.clock - request.stamp));
            assert_eq!(mean.sum(), ages.sum(), "{name}: {}", moment.text);
            assert_eq!(mean.count as usize, moment.after.pending.len());
        }
        let told = timeline::timeline_with(&played, MEAN_AGES);
        let (means, others): (Vec<&str>, Vec<&str>) = told
            .split_inclusive('\n')
            .partition(|line| line.trim_start().starts_with("mean age   "));
        assert_eq!(means.len(), played.moments().count(), "{name}");
        assert_eq!(others.concat(), timeline::timeline(&played), "{name}");
    }
}
