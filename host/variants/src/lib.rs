//! Faulty variants of the reference. Each replaces one rule; the streams have to tell each from the plain rules.

mod areas;
mod calls;
mod checks;
mod control;
mod delivery;
mod forecasts;
mod headers;
mod heights;
mod losses;
mod maps;
mod mean_ages;
mod messages;
mod requests;
mod results;
mod runs;
mod targets;
mod ticks;
mod types;
mod versions;

use keeper_reference::{Reference, Rules};
pub use targets::{AS_IN_F2, AS_PUBLISHED};

/// The place of the map's variants.
pub const MAP: &str = "F-1";

/// The place of the forecast's variants.
pub const FORECAST: &str = "F-3";

/// The place of those that count a list of ids off into requests.
pub const RUNS: &str = "F-4";

/// The place of those that take an empty header list wrongly.
pub const HEADERS: &str = "F-5";

/// The place of those that take a type of two bytes wrongly.
pub const TYPES: &str = "F-6";

/// The place of those that take an image's version wrongly.
pub const VERSIONS: &str = "F-6, versions";

/// The place of the mean age's variants.
pub const MEAN_AGE: &str = "F-7";

/// The place of those that choose a retry's target among stalled peers.
pub const TARGETS: &str = "F-8";

/// A keeper with one fault.
#[derive(Clone, Copy)]
pub struct Variant {
    /// Where document 01 or 02 states what is broken.
    pub place: &'static str,
    /// What it does instead.
    pub fault: &'static str,
    pub keeper: Reference,
}

fn variant(place: &'static str, fault: &'static str, rules: Rules) -> Variant {
    Variant {
        place,
        fault,
        keeper: Reference { rules },
    }
}

/// All variants, in document 01's order; then those of document 02.
pub fn all() -> Vec<Variant> {
    [
        delivery::variants(),
        requests::variants(),
        heights::variants(),
        checks::variants(),
        messages::variants(),
        control::variants(),
        losses::variants(),
        ticks::variants(),
        areas::variants(),
        calls::variants(),
        results::variants(),
        maps::variants(),
        forecasts::variants(),
        runs::variants(),
        headers::variants(),
        types::variants(),
        versions::variants(),
        mean_ages::variants(),
        targets::variants(),
    ]
    .concat()
}
