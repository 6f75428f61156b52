//! Faults in F-1's map of the window.

mod areas;
mod changes;
mod fills;
mod heights;
mod orders;
mod slides;

use crate::{variant, Variant, MAP};
use keeper_reference::Rules;

pub fn variants() -> Vec<Variant> {
    [
        heights::variants(),
        fills::variants(),
        changes::variants(),
        slides::variants(),
        areas::variants(),
        orders::variants(),
    ]
    .concat()
}

fn f1(fault: &'static str, rules: Rules) -> Variant {
    variant(MAP, fault, rules)
}
