//! The original's tracker by its own operations on whole lists, to be timed.

use keeper_values::{Id, TypeId};
use std::collections::HashSet;

/// The maps in which it holds what is pending.
#[derive(Debug, Clone, Copy, PartialEq, Eq)]
pub enum Maps {
    /// `BTreeMap`, as in the oracle.
    Ordered,
    /// `HashMap`, as it was published.
    Hashed,
}

/// The stalled and the listed peers, behind an open gate.
pub type Open<'a> = (&'a HashSet<u64>, &'a [u64]);

pub trait Tracker {
    /// The ids that are not pending, as `request_announced` picks them.
    fn wanted(&self, ids: &[Id]) -> Vec<Id>;

    fn mark_requested(&mut self, ids: &[Id], peer: u64, type_id: TypeId);

    /// `mark_received` of each.
    fn mark_received(&mut self, ids: &[Id]);

    fn schedule_rerequest(&mut self, ids: &[Id]);

    /// `check_timeouts`. With `open`, the retries are put into batches by target and type and marked as retried, as
    /// `handle_delivery_check` does in the oracle's copy. Answers how many were retried.
    fn check_timeouts(&mut self, open: Option<Open>) -> usize;

    fn pending_count(&self) -> usize;
}
