//! The reference: document 01, F-1 to F-8 of document 02 and docs/LAYOUT.md read as plain Rust on bytes. Small and
//! obvious rather than fast.
//!
//! In the oracle's domain it equals the original Rust; outside, on any bytes, it is what a core is held against. Every
//! decision is a field of [`Rules`], so that a faulty variant is the plain rules with one field replaced.
//!
//! ```
//! use keeper_reference::Reference;
//! use keeper_values::{numbers::kinds, Arguments, Keeper, Settings};
//!
//! let keeper = Reference::plain();
//! let settings = Settings { timeout: 10_000, max_checks: 100, min_sync_send_interval: 200, stall_timeout: 60_000 };
//! let mut state = vec![0; 65_536];
//! let mut commands = vec![0; 65_536];
//! assert_eq!(keeper.open(&mut state, settings, 1_000, 5), 0);
//!
//! let start = Arguments { kind: kinds::START, clock: 1_000, view: vec![0; 4], ..Arguments::default() };
//! assert_eq!(keeper.step(&mut state, &mut commands, &start).number, 0);
//! // A second start is no step of seeking.
//! assert_eq!(keeper.step(&mut state, &mut commands, &start).number, 5);
//! ```

pub mod commands;
pub mod delivery;
pub mod entries;
pub mod forecast;
pub mod image;
pub mod inputs;
pub mod map;
pub mod mean_age;
pub mod rules;
pub mod run;
pub mod steps;
pub mod sync;

use keeper_values::{Answer, Arguments, Forecast, Keeper, MapCall, MeanAge, Settings};
pub use rules::{Rules, PLAIN};
pub use run::{Refusal, Run};

/// A keeper that goes by these rules.
#[derive(Clone, Copy)]
pub struct Reference {
    pub rules: Rules,
}

impl Reference {
    /// The documents' own rules.
    pub fn plain() -> Self {
        Self { rules: PLAIN }
    }
}

impl Keeper for Reference {
    fn open(&self, state: &mut [u8], settings: Settings, clock: u64, height: u32) -> u32 {
        entries::open(&self.rules, state, settings, clock, height)
    }

    fn step(&self, state: &mut [u8], commands: &mut [u8], arguments: &Arguments) -> Answer {
        entries::step(&self.rules, state, commands, arguments)
    }

    fn forecast(&self, state: &[u8], arguments: &Arguments) -> Forecast {
        (self.rules.forecast)(&self.rules, state, arguments)
    }

    fn mean_age(&self, state: &[u8], clock: u64) -> MeanAge {
        (self.rules.mean_age)(&self.rules, state, clock)
    }

    fn question(&self, state: &[u8], commands: &mut [u8], flag: u8) -> (u32, u32) {
        entries::question(&self.rules, state, commands, flag)
    }

    fn map_call(&self, map: &mut [u8], call: &MapCall) -> u32 {
        map::call(&self.rules, map, call)
    }

    fn map_passable(&self, map: &[u8]) -> (u32, u32) {
        map::passable(&self.rules, map)
    }
}
