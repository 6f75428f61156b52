//! The keepers that take part.

use keeper_reference::{Reference, PLAIN};
use keeper_values::Keeper;

static REFERENCE: Reference = Reference { rules: PLAIN };

/// The proved core, unless this was built without it.
#[cfg(feature = "core")]
pub const CORE: Option<&dyn Keeper> = Some(&keeper_core::Core);
#[cfg(not(feature = "core"))]
pub const CORE: Option<&dyn Keeper> = None;

/// The reference, which the oracle judges, and the core beside it.
pub fn all() -> Vec<&'static dyn Keeper> {
    let reference: &dyn Keeper = &REFERENCE;
    std::iter::once(reference).chain(CORE).collect()
}

/// What is held against the reference on bytes: the core, or the reference itself.
pub fn on_bytes() -> &'static dyn Keeper {
    CORE.unwrap_or(&REFERENCE)
}

/// The names of those that take part.
pub fn names() -> &'static str {
    if CORE.is_some() {
        "oracle, reference and core"
    } else {
        "oracle and reference"
    }
}
