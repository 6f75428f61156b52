//! Stand-in for `tracing`: a record is kept as the text of the macro's arguments, which are not evaluated.
//! The oracle reads from these texts which way the Rust went where no field shows it.

use std::cell::RefCell;

thread_local! {
    static NOTES: RefCell<Vec<&'static str>> = const { RefCell::new(Vec::new()) };
}

/// Keeps one record.
pub fn note(text: &'static str) {
    NOTES.with(|notes| notes.borrow_mut().push(text));
}

/// Forgets the records kept so far.
pub fn clear() {
    NOTES.with(|notes| notes.borrow_mut().clear());
}

/// Whether a record since the last `clear` holds this text.
pub fn noted(text: &str) -> bool {
    NOTES.with(|notes| notes.borrow().iter().any(|note| note.contains(text)))
}

#[macro_export]
macro_rules! debug {
    ($($argument:tt)*) => { $crate::note(stringify!($($argument)*)) };
}

#[macro_export]
macro_rules! info {
    ($($argument:tt)*) => { $crate::note(stringify!($($argument)*)) };
}

#[macro_export]
macro_rules! warn {
    ($($argument:tt)*) => { $crate::note(stringify!($($argument)*)) };
}

#[macro_export]
macro_rules! error {
    ($($argument:tt)*) => { $crate::note(stringify!($($argument)*)) };
}
