//! A step under way: it works on a copy of the state, so that a late refusal changes nothing.

use crate::commands::Commands;
use crate::inputs::Inputs;
use crate::Rules;
use keeper_values::{Row, State};

/// A step turned back, with its number.
#[derive(Debug, Clone, Copy, PartialEq, Eq)]
pub struct Refusal(pub u32);

pub struct Run<'a> {
    pub rules: &'a Rules,
    pub inputs: Inputs<'a>,
    pub state: State,
    pub commands: Commands,
    /// Retried, fresh, abandoned and forgotten of a check.
    pub counts: [u32; 4],
}

impl Run<'_> {
    /// The row of a height that a rule reads; without one the step is refused as 9.
    pub fn read(&self, height: u32) -> Result<Row, Refusal> {
        self.inputs.row(height).ok_or(Refusal(9))
    }

    /// The peer that rules 4 and 9 and the fresh ids of rule 6 turn to.
    pub fn first_peer(&self) -> Option<u64> {
        self.inputs.peers.first().copied()
    }
}
