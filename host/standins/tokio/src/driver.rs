//! What the driver of a step sets and reads.

use std::cell::Cell;

thread_local! {
    static CLOCK: Cell<u64> = const { Cell::new(0) };
    static ARMED: Cell<Option<&'static str>> = const { Cell::new(None) };
    static BRANCH: Cell<Option<&'static str>> = const { Cell::new(None) };
    static WAITING: Cell<Option<&'static str>> = const { Cell::new(None) };
}

/// Sets the clock, in milliseconds. It stands still until it is set again.
pub fn set_clock(milliseconds: u64) {
    CLOCK.with(|clock| clock.set(milliseconds));
}

pub(crate) fn clock() -> u64 {
    CLOCK.with(Cell::get)
}

/// Arms the timer in the `select!` branch whose future has this text, for one wake.
pub fn arm(branch: Option<&'static str>) {
    ARMED.with(|armed| armed.set(branch));
}

/// The armed branch, if its timer has not fired yet.
pub fn armed() -> Option<&'static str> {
    ARMED.with(Cell::get)
}

/// The branch of the timer that was polled last and did not fire.
pub fn waiting_timer() -> Option<&'static str> {
    WAITING.with(Cell::get)
}

/// Forgets which timer was polled last.
pub fn clear_timer() {
    WAITING.with(|waiting| waiting.set(None));
}

pub(crate) fn enter_branch(name: &'static str) {
    BRANCH.with(|branch| branch.set(Some(name)));
}

/// Whether the timer being polled is the armed one; it fires once.
pub(crate) fn fires() -> bool {
    let branch = BRANCH.with(Cell::get);
    let fires = armed().is_some() && armed() == branch;
    if fires {
        arm(None);
    } else {
        WAITING.with(|waiting| waiting.set(branch));
    }
    fires
}
