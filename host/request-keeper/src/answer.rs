use std::fmt::{self, Display, Formatter};

/// What a finished step came to.
#[derive(Debug, Clone, Copy, PartialEq, Eq, Hash)]
pub enum Outcome {
    /// No other is named.
    Continue,
    /// Caught up with the sync peer.
    Synced,
    /// The sender is ahead; it is the sync peer now.
    BehindPeer,
    /// The sync peer is lost, its entry's send failed, or a tick in synced found no peer.
    SyncPeerGone,
    /// No progress for longer than the stall timeout.
    Stalled,
    /// The stream of events has ended.
    EndOfStream,
    /// A number that this crate does not know: the library linked is not of its version.
    Unknown(u32),
}

impl Outcome {
    /// The core's contract knows the numbers 0 to 5 and no other.
    pub(crate) fn of(number: u32) -> Self {
        match number {
            0 => Self::Continue,
            1 => Self::Synced,
            2 => Self::BehindPeer,
            3 => Self::SyncPeerGone,
            4 => Self::Stalled,
            5 => Self::EndOfStream,
            other => Self::Unknown(other),
        }
    }

    /// Document 01's number.
    pub fn number(self) -> u32 {
        match self {
            Self::Continue => 0,
            Self::Synced => 1,
            Self::BehindPeer => 2,
            Self::SyncPeerGone => 3,
            Self::Stalled => 4,
            Self::EndOfStream => 5,
            Self::Unknown(number) => number,
        }
    }
}

impl Display for Outcome {
    /// Document 01's words.
    fn fmt(&self, out: &mut Formatter<'_>) -> fmt::Result {
        out.write_str(match self {
            Self::Continue => "Continue",
            Self::Synced => "Synced",
            Self::BehindPeer => "BehindPeer",
            Self::SyncPeerGone => "sync peer gone",
            Self::Stalled => "Stalled",
            Self::EndOfStream => "end of stream",
            Self::Unknown(number) => return write!(out, "unknown outcome {number}"),
        })
    }
}

/// The numbers of a finished step.
#[derive(Debug, Clone, Copy, PartialEq, Eq)]
pub struct Answer {
    pub outcome: Outcome,
    /// In a check, else 0: requests that expired and go out again.
    pub retried: u32,
    /// In a check, else 0: evicted ids handed out.
    pub fresh: u32,
    /// In a check, else 0: requests given up.
    pub abandoned: u32,
    /// In a check, else 0: transactions that expired.
    pub forgotten: u32,
    /// Pending requests after the step.
    pub pending: u32,
    /// Evicted ids after the step.
    pub evicted: u32,
}

impl Display for Answer {
    fn fmt(&self, out: &mut Formatter<'_>) -> fmt::Result {
        write!(
            out,
            "{}; retried {}, fresh {}, abandoned {}, forgotten {}; pending {}, evicted {}",
            self.outcome,
            self.retried,
            self.fresh,
            self.abandoned,
            self.forgotten,
            self.pending,
            self.evicted
        )
    }
}

#[cfg(test)]
mod tests {
    use super::Outcome;

    #[test]
    fn each_number_has_its_outcome() {
        for number in [0, 1, 2, 3, 4, 5, 6, u32::MAX] {
            assert_eq!(Outcome::of(number).number(), number);
        }
        assert_eq!(Outcome::of(6), Outcome::Unknown(6));
    }
}
