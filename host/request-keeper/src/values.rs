//! Small values that calls and answers are made of.

use std::fmt::{self, Display, Formatter};

/// A modifier id. [`Hex`](crate::Hex) shows it in hexadecimal digits.
pub type Id = [u8; 32];

/// A peer, by the number that the host has given it.
#[derive(Debug, Clone, Copy, PartialEq, Eq, PartialOrd, Ord, Hash)]
pub struct Peer(pub u64);

impl Display for Peer {
    fn fmt(&self, out: &mut Formatter<'_>) -> fmt::Result {
        write!(out, "peer {}", self.0)
    }
}

/// Settings, fixed when the keeper is opened. Milliseconds, save for the check limit.
#[derive(Debug, Clone, Copy, PartialEq, Eq)]
pub struct Settings {
    /// A request is expired this long after its stamp.
    pub timeout: u32,
    /// A request is abandoned by the check that makes its checks reach this many.
    pub max_checks: u32,
    /// No sync info is sent within this time of the last.
    pub min_sync_send_interval: u32,
    /// A sync peer without progress for longer than this is stalled.
    pub stall_timeout: u32,
}

impl Default for Settings {
    /// The original's own: 10 s, 100 checks, 200 ms, 60 s.
    fn default() -> Self {
        Self {
            timeout: 10_000,
            max_checks: 100,
            min_sync_send_interval: 200,
            stall_timeout: 60_000,
        }
    }
}

impl Display for Settings {
    fn fmt(&self, out: &mut Formatter<'_>) -> fmt::Result {
        write!(
            out,
            "timeout {} ms, check limit {}, sync infos {} ms apart, stalled after {} ms",
            self.timeout, self.max_checks, self.min_sync_send_interval, self.stall_timeout
        )
    }
}

/// Where the keeper stands.
#[derive(Debug, Clone, Copy, PartialEq, Eq, Hash)]
pub enum Mode {
    /// Opened; takes [`Step::Start`](crate::Step::Start) only.
    New,
    /// Without a sync peer.
    Seeking,
    /// Fetching headers from the sync peer.
    Syncing,
    /// At the sync peer's tip.
    Synced,
    /// After the end of the stream; takes no step.
    Ended,
    /// A number that this crate does not know: the library linked is not of its version.
    Unknown(u8),
}

impl Mode {
    /// The core's images have the numbers 0 to 4 and no other.
    pub(crate) fn of(number: u8) -> Self {
        match number {
            0 => Self::New,
            1 => Self::Seeking,
            2 => Self::Syncing,
            3 => Self::Synced,
            4 => Self::Ended,
            other => Self::Unknown(other),
        }
    }

    /// The number in the state area.
    pub fn number(self) -> u8 {
        match self {
            Self::New => 0,
            Self::Seeking => 1,
            Self::Syncing => 2,
            Self::Synced => 3,
            Self::Ended => 4,
            Self::Unknown(number) => number,
        }
    }
}

impl Display for Mode {
    fn fmt(&self, out: &mut Formatter<'_>) -> fmt::Result {
        out.write_str(match self {
            Self::New => "new",
            Self::Seeking => "seeking",
            Self::Syncing => "syncing",
            Self::Synced => "synced",
            Self::Ended => "ended",
            Self::Unknown(number) => return write!(out, "unknown mode {number}"),
        })
    }
}

#[cfg(test)]
mod tests {
    use super::Mode;

    #[test]
    fn each_number_has_its_mode() {
        for number in 0..=u8::MAX {
            assert_eq!(Mode::of(number).number(), number);
        }
        assert_eq!(Mode::of(5), Mode::Unknown(5));
    }
}
