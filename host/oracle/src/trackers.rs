//! The original's tracker with ordered maps and as it was published.

use crate::domain::byte;
use crate::tracker::{Maps, Open, Tracker};
use crate::{delivery, delivery_as_published};
use enr_p2p::types::PeerId;
use keeper_values::{Id, TypeId};
use std::collections::{BTreeMap, HashMap};
use tokio::time::Duration;

macro_rules! tracker_with {
    ($tracker:ty, $map:ident) => {
        impl Tracker for $tracker {
            fn wanted(&self, ids: &[Id]) -> Vec<Id> {
                let mut wanted = Vec::with_capacity(ids.len());
                for id in ids {
                    if !self.is_pending(id) {
                        wanted.push(*id);
                    }
                }
                wanted
            }

            fn mark_requested(&mut self, ids: &[Id], peer: u64, type_id: TypeId) {
                self.mark_requested(ids, PeerId(peer), byte(type_id));
            }

            fn mark_received(&mut self, ids: &[Id]) {
                for id in ids {
                    self.mark_received(id);
                }
            }

            fn schedule_rerequest(&mut self, ids: &[Id]) {
                self.schedule_rerequest(ids);
            }

            fn check_timeouts(&mut self, open: Option<Open>) -> usize {
                let checked = self.check_timeouts();
                let open = open.filter(|_| !checked.retries.is_empty());
                let Some((stalled, peers)) = open else {
                    return checked.retries.len();
                };
                // Unstalled ones, then all: F-8 takes the first of these other than the failed one.
                let free = peers.iter().filter(|peer| !stalled.contains(*peer));
                let in_order: Vec<u64> = free.chain(peers).copied().collect();
                let mut batches: $map<(PeerId, u8), Vec<Id>> = $map::new();
                for retry in &checked.retries {
                    let other = in_order
                        .iter()
                        .find(|peer| PeerId(**peer) != retry.failed_peer);
                    let target = other.map_or(retry.failed_peer, |peer| PeerId(*peer));
                    batches
                        .entry((target, retry.type_id))
                        .or_default()
                        .push(retry.id);
                }
                for ((target, _), ids) in batches {
                    self.mark_retried(&ids, target);
                }
                checked.retries.len()
            }

            fn pending_count(&self) -> usize {
                self.pending_count()
            }
        }
    };
}

tracker_with!(delivery::DeliveryTracker, BTreeMap);
tracker_with!(delivery_as_published::DeliveryTracker, HashMap);

/// A tracker without requests.
pub fn tracker(maps: Maps, timeout: u32, max_checks: u32) -> Option<Box<dyn Tracker>> {
    let timeout = Duration::from_millis(u64::from(timeout));
    Some(match maps {
        Maps::Ordered => Box::new(delivery::DeliveryTracker::with_config(timeout, max_checks)),
        Maps::Hashed => Box::new(delivery_as_published::DeliveryTracker::with_config(
            timeout, max_checks,
        )),
    })
}

/// Sets the clock that the trackers read, in milliseconds.
pub fn set_clock(milliseconds: u64) {
    tokio::driver::set_clock(milliseconds);
}
