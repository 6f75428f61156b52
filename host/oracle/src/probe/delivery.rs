//! A child module of the original's delivery.rs, so that its private fields can be read and put.

use super::{CheckResult, DeliveryTracker, PendingRequest};
use crate::domain::byte;
use enr_p2p::types::PeerId;
use keeper_values::{Id, Request};
use std::collections::BTreeMap;
use tokio::time::Instant;

pub fn pending(tracker: &DeliveryTracker) -> BTreeMap<Id, Request> {
    let request = |request: &PendingRequest| Request {
        peer: request.peer.0,
        type_id: request.type_id.into(),
        stamp: request.requested_at.as_millis(),
        checks: request.checks,
    };
    tracker
        .pending
        .iter()
        .map(|(id, r)| (*id, request(r)))
        .collect()
}

pub fn evicted(tracker: &DeliveryTracker) -> Vec<Id> {
    tracker.evicted.clone()
}

pub fn put(tracker: &mut DeliveryTracker, pending: &BTreeMap<Id, Request>, evicted: &[Id]) {
    let request = |request: &Request| PendingRequest {
        peer: PeerId(request.peer),
        type_id: byte(request.type_id),
        requested_at: Instant::from_millis(request.stamp),
        checks: request.checks,
    };
    tracker.pending = pending.iter().map(|(id, r)| (*id, request(r))).collect();
    tracker.evicted = evicted.to_vec();
}

/// What a check would give now, tried on a copy.
pub fn check_of_copy(tracker: &DeliveryTracker) -> CheckResult {
    let mut copy = DeliveryTracker::with_config(tracker.timeout, tracker.max_checks);
    put(&mut copy, &pending(tracker), &tracker.evicted);
    copy.check_timeouts()
}
