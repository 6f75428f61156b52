use keeper_values::{Command, State};

/// A send as the Rust tried it.
#[derive(Debug, Clone, PartialEq, Eq)]
pub struct Sent {
    pub command: Command,
    pub failed: bool,
}

/// What a step of the Rust did.
#[derive(Debug, Clone, PartialEq, Eq)]
pub struct Observed {
    pub outcome: u32,
    pub retried: u32,
    pub fresh: u32,
    pub abandoned: u32,
    pub forgotten: u32,
    /// The stalled peers are in rising order: the Rust has a set.
    pub state: State,
    pub sends: Vec<Sent>,
}

/// What the Rust says of a step.
#[derive(Debug, Clone, PartialEq, Eq)]
pub enum Verdict {
    Finished(Box<Observed>),
    /// 9, 10 or 11, from what the Rust read and from what it would hold.
    Refused(u32),
    /// The Rust can't judge this step; the reason.
    OutOfDomain(Reason),
    /// The Rust did something that the driver does not know: an error in the oracle.
    Lost(&'static str),
}

/// Why a step is outside the oracle's domain (docs/DIFFERENCES.md).
#[derive(Debug, Clone, Copy, PartialEq, Eq)]
pub enum Reason {
    /// D-1: the Rust sees the end of the stream in seeking only after a fruitless pick.
    EndWithoutPick,
    /// A sum overflows.
    Panic,
    /// Both marks at once: the Rust has no such place.
    NoSuchPlace,
    /// D-3 (F-5): an empty header list from another peer than the sync peer.
    EmptyHeaders,
    /// D-4 (F-6): a type above 255, pending or in the call.
    WideTypes,
}
