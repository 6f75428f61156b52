//! Other keepers beside the first: the same calls on areas of their own, and the same bytes after each.

use crate::area::Areas;
use keeper_reference::{image, PLAIN};
use keeper_streams::Opening;
use keeper_values::{Answer, Arguments, Keeper, State};

pub struct Beside<'k> {
    keeper: &'k dyn Keeper,
    areas: Areas,
}

/// The first byte that differs, and what both images say.
fn state_difference(first: &[u8], beside: &[u8]) -> String {
    let at = first.iter().zip(beside).position(|(a, b)| a != b);
    let says = |area| image::read(&PLAIN, area);
    format!(
        "state area, byte {at:?}\n  first  {:?}\n  beside {:?}",
        says(first),
        says(beside)
    )
}

impl<'k> Beside<'k> {
    pub fn new(keeper: &'k dyn Keeper, opening: &Opening, first: &[u8]) -> Result<Self, String> {
        let areas = Areas::new(keeper, opening)?;
        let beside = Self { keeper, areas };
        beside.same_state(first)?;
        Ok(beside)
    }

    fn same_state(&self, first: &[u8]) -> Result<(), String> {
        if self.areas.state == first {
            return Ok(());
        }
        Err(state_difference(first, &self.areas.state))
    }

    /// The same call: the same answer, the same command bytes and no others, the same state area.
    pub fn step(
        &mut self,
        arguments: &Arguments,
        answer: &Answer,
        written: &[u8],
        state: &[u8],
    ) -> Result<(), String> {
        let own = self.areas.step(self.keeper, arguments)?;
        if own != *answer {
            return Err(format!("answer\n  first  {answer:?}\n  beside {own:?}"));
        }
        if self.areas.take_commands(own.length) != written {
            return Err("commands differ between the keepers".to_string());
        }
        self.same_state(state)
    }

    /// The mean age of the same state.
    pub fn mean_age(&self, state: &State, clock: u64) -> Result<(), String> {
        self.areas.mean_age(self.keeper, state, clock)
    }

    /// The same question: the same number and pairs, no other byte written.
    pub fn question(&mut self, flag: u8, number: u32, pairs: &[u8]) -> Result<(), String> {
        let (own, length) = self.areas.question(self.keeper, flag)?;
        if own != number || self.areas.take_commands(length) != pairs {
            return Err(format!(
                "question {flag} differs between the keepers: {own}"
            ));
        }
        Ok(())
    }
}
