//! Maps as people read them: all of it, or in a few words.

use crate::WindowMap;
use std::fmt::{self, Debug, Display, Formatter};

/// The byte of a height whose header is absent; another has the number of sections in its upper half, and below it a bit
/// for each that is stored (docs/LAYOUT.md, "Map of the window").
const ABSENT: u8 = 128;

impl Display for WindowMap {
    fn fmt(&self, out: &mut Formatter<'_>) -> fmt::Result {
        let below = u64::from(self.downloaded_height());
        match self.height_bytes().len() as u64 {
            0 => return out.write_str("no heights"),
            heights => write!(out, "heights {} to {}, ", below + 1, below + heights)?,
        }
        match self.passable() {
            0 => out.write_str("none can be passed"),
            passable => write!(out, "{passable} can be passed"),
        }
    }
}

impl Debug for WindowMap {
    fn fmt(&self, out: &mut Formatter<'_>) -> fmt::Result {
        let heights: Vec<_> = self.height_bytes().iter().copied().map(Height).collect();
        out.debug_struct("WindowMap")
            .field("downloaded_height", &self.downloaded_height())
            .field("chain_height", &self.chain_height())
            .field("passable", &self.passable())
            .field("heights", &heights)
            .finish()
    }
}

/// A height's byte, to be shown.
struct Height(u8);

impl Debug for Height {
    fn fmt(&self, out: &mut Formatter<'_>) -> fmt::Result {
        if self.0 == ABSENT {
            return out.write_str("absent");
        }
        let stored = |place: u8| match self.0 >> place & 1 {
            1 => format_args!("stored"),
            _ => format_args!("missing"),
        };
        out.debug_list()
            .entries((0..self.0 >> 4).map(stored))
            .finish()
    }
}
