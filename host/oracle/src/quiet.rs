//! Panics of the Rust are answers here (a sum that overflows), so they are caught and not printed.

use std::cell::Cell;
use std::panic::{catch_unwind, set_hook, take_hook, UnwindSafe};
use std::sync::Once;
use std::thread::Result;

thread_local! {
    static QUIET: Cell<bool> = const { Cell::new(false) };
}

static HOOK: Once = Once::new();

pub fn quietly<R>(work: impl FnOnce() -> R + UnwindSafe) -> Result<R> {
    HOOK.call_once(|| {
        let printing = take_hook();
        set_hook(Box::new(move |panic| {
            if !QUIET.with(Cell::get) {
                printing(panic);
            }
        }));
    });
    QUIET.with(|quiet| quiet.set(true));
    let result = catch_unwind(work);
    QUIET.with(|quiet| quiet.set(false));
    result
}
