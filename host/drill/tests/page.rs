//! docs/DRILL.md: its example is a scenario, and is told as the page says, with forecasts and without; every word of the
//! format stands there.

use drill::play::{play, Played};
use drill::scenario::read;
use drill::shipped::SCENARIOS;
use drill::timeline::{self, OnDemand};

const PAGE: &str = include_str!("../../../docs/DRILL.md");

/// A section of the page.
fn section(title: &str) -> &'static str {
    let (_, section) = PAGE
        .split_once(&format!("\n## {title}\n"))
        .expect("the section");
    let (section, _) = section.split_once("\n## ").expect("a next section");
    section
}

/// The indented block of a part of the page.
fn block(part: &str) -> String {
    let lines = part
        .lines()
        .filter(|line| line.starts_with("    ") || line.is_empty());
    let text: Vec<&str> = lines
        .map(|line| line.strip_prefix("    ").unwrap_or(line))
        .collect();
    text.join("\n").trim().to_string()
}

/// The example as it is played, and what the page says that it prints.
fn example() -> (Played, String) {
    let (scenario, printed) = section("An example")
        .split_once("It prints:")
        .expect("two blocks");
    let scenario = read(&block(scenario)).expect("well formed");
    (play(&scenario).expect("opened"), block(printed))
}

#[test]
fn the_example_is_told_as_the_page_says() {
    let (played, expected) = example();
    let told = timeline::timeline(&played);
    assert!(told.trim() == expected, "it is told otherwise:\n{told}");
}

/// A section shows the example with lines of this label, as it is told on demand.
fn shown_on_demand(name: &str, label: &str, on_demand: OnDemand) {
    let (played, _) = example();
    let told = timeline::timeline_with(&played, on_demand);
    let expected = block(section(name));
    let line = format!("\n            {label}   ");
    assert!(expected.contains(&line), "{expected}");
    assert!(told.contains(&expected), "it is told otherwise:\n{told}");
}

#[test]
fn lines_on_demand_are_told_as_the_page_says() {
    let none = OnDemand::default();
    let forecast = OnDemand {
        forecast: true,
        ..none
    };
    shown_on_demand("The forecast", "forecast", forecast);
    let mean_age = OnDemand {
        mean_age: true,
        ..none
    };
    shown_on_demand("The mean age", "mean age", mean_age);
}

#[test]
fn every_shipped_scenario_stands_on_the_page() {
    for (name, _) in SCENARIOS {
        assert!(PAGE.contains(&format!("| `{name}` |")), "{name}");
    }
}

/// The words that errors offer are those of the page.
#[test]
fn every_word_stands_on_the_page() {
    let offers = [
        ("open 0 0\nattack\n", "expected "),
        ("open 0 0\nat 0 jump\n", "expected "),
        ("open 0 0\nat 0 start\nexpect rain\n", "comes "),
        ("setting speed 5\n", "expected "),
    ];
    for (text, before) in offers {
        let what = read(text).expect_err("a fault").what;
        let (_, list) = what.split_once(before).expect("a list of words");
        for word in list.replace(" or ", ", ").split(", ") {
            let known = [
                format!("`{word}`"),
                format!("`{word} "),
                format!("`at CLOCK {word}"),
            ];
            assert!(
                known.iter().any(|form| PAGE.contains(form)) || word == "at" || word == "expect",
                "`{word}` is not on the page"
            );
        }
    }
}
