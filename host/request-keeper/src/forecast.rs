use crate::Outcome;
use std::fmt::{self, Display, Formatter};

/// What a step would come to: each figure is the one that the step then shows.
#[derive(Debug, Clone, Copy, PartialEq, Eq)]
pub struct Forecast {
    pub outcome: Outcome,
    /// Pending requests after the step.
    pub pending: u32,
    /// Evicted ids after the step.
    pub evicted: u32,
    /// How many commands the step would write.
    pub commands: u32,
    /// The bytes of these commands.
    pub command_bytes: u32,
}

impl Display for Forecast {
    fn fmt(&self, out: &mut Formatter<'_>) -> fmt::Result {
        write!(
            out,
            "{}; pending {}, evicted {}; commands {}, bytes {}",
            self.outcome, self.pending, self.evicted, self.commands, self.command_bytes
        )
    }
}
