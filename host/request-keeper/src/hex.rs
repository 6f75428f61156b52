//! Ids as people read them.

use crate::Id;
use std::fmt::{self, Debug, Display, Formatter};

/// An id as 64 hexadecimal digits.
///
/// ```
/// use request_keeper::Hex;
///
/// assert_eq!(Hex(&[0xa5; 32]).to_string(), "a5".repeat(32));
/// ```
#[derive(Clone, Copy, PartialEq, Eq)]
pub struct Hex<'a>(pub &'a Id);

impl Display for Hex<'_> {
    fn fmt(&self, out: &mut Formatter<'_>) -> fmt::Result {
        self.0.iter().try_for_each(|byte| write!(out, "{byte:02x}"))
    }
}

impl Debug for Hex<'_> {
    fn fmt(&self, out: &mut Formatter<'_>) -> fmt::Result {
        Display::fmt(self, out)
    }
}

/// A list of ids.
pub(crate) struct HexList<'a>(pub &'a [Id]);

impl Debug for HexList<'_> {
    fn fmt(&self, out: &mut Formatter<'_>) -> fmt::Result {
        out.debug_list().entries(self.0.iter().map(Hex)).finish()
    }
}

/// `3 ids`, `1 id`.
pub(crate) fn count(ids: &[Id]) -> String {
    match ids.len() {
        1 => "1 id".to_string(),
        number => format!("{number} ids"),
    }
}
