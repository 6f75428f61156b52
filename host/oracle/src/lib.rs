//! The oracle: delivery.rs, state.rs and traits.rs of the original, compiled from the published source with ordered
//! maps and a 64-bit peer id, its real loops driven one wake a step.
//!
//! Where the source is not at hand the crate still builds, and `Oracle` can't be made.

mod domain;
mod tracker;
mod verdict;

pub use domain::{holds, takes};
pub use tracker::{Maps, Tracker};
pub use verdict::{Observed, Reason, Sent, Verdict};

#[cfg(oracle)]
include!(concat!(env!("OUT_DIR"), "/modules.rs"));

#[cfg(oracle)]
mod driver;
#[cfg(oracle)]
mod parked;
#[cfg(oracle)]
mod quiet;
#[cfg(oracle)]
mod scene;
#[cfg(oracle)]
mod standins;
#[cfg(oracle)]
mod stubs;
#[cfg(oracle)]
mod trackers;

#[cfg(oracle)]
use stubs::{
    apply_state_error, catchup_progress, light_bootstrap, retention, snapshot, sweep_backoff,
};

#[cfg(oracle)]
pub use driver::Oracle;
#[cfg(oracle)]
pub use trackers::{set_clock, tracker};

#[cfg(not(oracle))]
mod absent;
#[cfg(not(oracle))]
pub use absent::{set_clock, tracker, Oracle};

/// Whether the original Rust was found when this was built.
pub const SOURCE_FOUND: bool = cfg!(oracle);
