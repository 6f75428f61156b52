//! What a case is held to: how much of another time its own may be.

/// The other time.
#[derive(Debug, Clone, Copy, PartialEq, Eq)]
pub enum Against {
    /// Memory, and the Rust's work on the same data: what a core that keeps its state in the caller's bytes cannot do
    /// without.
    Limit,
    /// The original's tracker as it was published, over `HashMap`.
    Hashed,
    /// The original's whole step, over `BTreeMap`.
    Original,
}

impl Against {
    pub fn name(self) -> &'static str {
        match self {
            Self::Limit => "the limit",
            Self::Hashed => "the tracker over HashMap",
            Self::Original => "the Rust's step",
        }
    }
}

#[derive(Debug, Clone, Copy)]
pub struct Bound {
    pub against: Against,
    pub at_most: f64,
}

const fn bound(against: Against, at_most: f64) -> Bound {
    Bound { against, at_most }
}

/// Idle steps, refusals and questions.
pub const QUIET: &[Bound] = &[bound(Against::Limit, 1.0)];

/// Steps with few ids.
pub const FEW: &[Bound] = &[bound(Against::Limit, 1.5)];

/// 256 ids or more announced, or checked and retried.
pub const ANNOUNCED: &[Bound] = &[
    bound(Against::Limit, 1.0),
    bound(Against::Hashed, 1.0),
    bound(Against::Original, 0.6),
];

/// A check that retries none: the Rust's step is less than one test of the image.
pub const SCANNED: &[Bound] = &[bound(Against::Limit, 1.0), bound(Against::Hashed, 1.0)];

/// 256 ids or more received or evicted.
pub const REMOVED: &[Bound] = &[
    bound(Against::Limit, 1.0),
    bound(Against::Hashed, 1.3),
    bound(Against::Original, 0.6),
];

/// Windows of 256 ids or more.
pub const WINDOW: &[Bound] = &[
    bound(Against::Limit, 1.0),
    bound(Against::Hashed, 1.5),
    bound(Against::Original, 0.6),
];
